"""How characters that a terminal, XML or Graphviz would act on are shown."""

# Control characters have pictures, or U+FFFD. XML does not have two other characters.
VISIBLE = {**{it: 0x2400 + it for it in range(32)}, 127: 0x2421, **{it: 0xFFFD for it in range(128, 160)}}
PICTURES = {**VISIBLE, 0xFFFE: 0xFFFD, 0xFFFF: 0xFFFD}
