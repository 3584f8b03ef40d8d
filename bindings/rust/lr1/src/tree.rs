//! Parse trees.

use crate::Symbol;
use std::fmt;
use std::ops::Range;

/// A parse tree, of any depth. Its text has brackets around each nonterminal with its children.
#[derive(Clone, Debug, PartialEq, Eq)]
pub struct Tree {
    text: String,
    /// The nodes, each before its children.
    nodes: Vec<Place>,
}

/// A node: where its symbol is in the text, and the number of the node after all below it.
#[derive(Clone, Debug, PartialEq, Eq)]
struct Place {
    symbol: Range<usize>,
    is_terminal: bool,
    after: usize,
}

impl Tree {
    /// The tree of a text.
    pub(crate) fn of(text: &str) -> Option<Tree> {
        let text = text.strip_suffix('\n')?.to_string();
        let (mut nodes, mut open, mut at) = (Vec::new(), Vec::new(), 0);
        while let Some(first) = text[at..].chars().next() {
            match first {
                '"' | '[' => {
                    let is_terminal = first == '"';
                    let end = at + 1 + text[at + 1..].find(if is_terminal { "\"" } else { ": " })?;
                    if !is_terminal {
                        open.push(nodes.len());
                    }
                    nodes.push(Place {
                        symbol: at + 1..end,
                        is_terminal,
                        after: nodes.len() + 1,
                    });
                    at = end;
                }
                ']' => {
                    let place: usize = open.pop()?;
                    nodes[place].after = nodes.len();
                }
                _ => {}
            }
            at += first.len_utf8();
        }
        let is_whole = open.is_empty() && nodes.first()?.after == nodes.len();
        is_whole.then_some(Tree { text, nodes })
    }

    /// The node of the start symbol.
    pub fn root(&self) -> Node<'_> {
        Node { tree: self, place: 0 }
    }

    /// The number of all nodes, which is that of the steps of the parse.
    pub fn node_count(&self) -> usize {
        self.nodes.len()
    }
}

impl fmt::Display for Tree {
    fn fmt(&self, to: &mut fmt::Formatter<'_>) -> fmt::Result {
        to.write_str(&self.text)
    }
}

/// A node of a parse tree.
#[derive(Clone, Copy, Debug)]
pub struct Node<'tree> {
    tree: &'tree Tree,
    place: usize,
}

impl<'tree> Node<'tree> {
    /// The symbol of the node: a literal has no children.
    pub fn symbol(&self) -> Symbol<'tree> {
        let place = &self.tree.nodes[self.place];
        let text = &self.tree.text[place.symbol.clone()];
        if place.is_terminal {
            Symbol::Literal(text)
        } else {
            Symbol::Nonterminal(text)
        }
    }

    /// The children, from left to right.
    ///
    /// ```
    /// # use lr1::{Grammar, ParseOutcome, Symbol::Literal};
    /// let tables = Grammar::from_text("S = \"a\" \"b\"").tables("S")?;
    /// let ParseOutcome::Tree(tree) = tables.parse(&["a", "b"], 9)? else { panic!() };
    /// let symbols: Vec<_> = tree.root().children().map(|it| it.symbol()).collect();
    /// assert_eq!(symbols, [Literal("a"), Literal("b")]);
    /// # Ok::<(), lr1::Error>(())
    /// ```
    pub fn children(&self) -> Children<'tree> {
        let after = self.tree.nodes[self.place].after;
        Children {
            tree: self.tree,
            next: self.place + 1,
            after,
        }
    }
}

/// The children of a node.
#[derive(Clone, Debug)]
pub struct Children<'tree> {
    tree: &'tree Tree,
    next: usize,
    after: usize,
}

impl<'tree> Iterator for Children<'tree> {
    type Item = Node<'tree>;

    fn next(&mut self) -> Option<Node<'tree>> {
        if self.next >= self.after {
            return None;
        }
        let node = Node {
            tree: self.tree,
            place: self.next,
        };
        self.next = self.tree.nodes[self.next].after;
        Some(node)
    }
}

#[cfg(test)]
mod tests {
    use super::*;

    #[test]
    fn nodes() {
        let tree = Tree::of("[S: [E: ], \"], [\", [E: \"é\"]]\n").unwrap();
        let root = tree.root();
        let children: Vec<Node> = root.children().collect();
        assert_eq!(root.symbol(), Symbol::Nonterminal("S"));
        assert_eq!(children[1].symbol(), Symbol::Literal("], ["));
        assert_eq!(children[0].children().count(), 0);
        assert_eq!(
            children[2].children().next().unwrap().symbol(),
            Symbol::Literal("é")
        );
        assert_eq!((children.len(), tree.node_count()), (3, 5));
    }

    #[test]
    fn deep() {
        let text = format!("{}\"x\"{}\n", "[S: ".repeat(1_000_000), "]".repeat(1_000_000));
        let tree = Tree::of(&text).unwrap();
        assert_eq!(tree.to_string(), text.trim_end());
    }

    #[test]
    fn other_texts() {
        for it in ["", "\n", "[S: \n", "[S: ]]\n", "[S: ][S: ]\n", "\"a\n", "[S: ]"] {
            assert_eq!(Tree::of(it), None, "{it}");
        }
    }
}
