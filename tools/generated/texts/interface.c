static inline const char *lr_terminal_text(lr_terminal terminal)
{
    return lr_terminal_texts[terminal];
}

static inline const char *lr_nonterminal_text(lr_nonterminal nonterminal)
{
    return lr_nonterminal_texts[nonterminal];
}

static inline lr_nonterminal lr_left_side(lr_production production)
{
    return (lr_nonterminal)lr_tables.left[production];
}

static inline size_t lr_right_length(lr_production production)
{
    return lr_tables.length[production];
}
