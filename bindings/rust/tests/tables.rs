//! Tables of parsers: a textbook's grammar, random sentences of others, and what is refused.

use conthiral::{Table, TableError};
use rand::Rng;

const ROUNDS: usize = 200;

/// Aho, Lam, Sethi and Ullman, Compilers, grammar 4.1.
const EXPRESSIONS: &str = "%token id %% e: e '+' t | t; t: t '*' f | f; f: '(' e ')' | id;";

fn tokens(table: &Table, text: &str) -> Vec<usize> {
    text.split_whitespace().map(|name| table.terminal(name).unwrap()).collect()
}

/// Tokens that a symbol derives, by the shortest rules once there is no room.
fn sentence(table: &Table, symbol: usize, room: usize, made: &mut Vec<usize>) {
    if symbol < table.terminals() {
        return made.push(symbol);
    }
    let rules: Vec<_> = (1..table.rules()).filter(|&rule| table.rule(rule).0 == symbol).collect();
    let shortest = *rules.iter().min_by_key(|&&rule| table.rule(rule).1.len()).unwrap();
    let rule = if room > 0 { rules[rand::rng().random_range(0..rules.len())] } else { shortest };
    for &each in table.rule(rule).1 {
        sentence(table, each, room.saturating_sub(1), made);
    }
}

/// What a rightmost derivation makes of the start symbol, read from the last rule back.
fn derived(table: &Table, rules: &[usize]) -> Vec<usize> {
    let (mut before, mut tokens) = (vec![table.rule(0).1[0]], Vec::new());
    let mut rules = rules.iter().rev();
    while let Some(symbol) = before.pop() {
        if symbol < table.terminals() {
            tokens.push(symbol);
        } else {
            let (left, right) = table.rule(*rules.next().unwrap());
            assert_eq!(left, symbol);
            before.extend(right);
        }
    }
    assert_eq!(rules.next(), None);
    tokens.reverse();
    tokens
}

#[test]
fn the_expressions_of_the_book_are_parsed_as_there() {
    let table = Table::new(EXPRESSIONS).unwrap();
    assert_eq!(table.parse(&tokens(&table, "id * id + id")), Ok(vec![6, 4, 6, 3, 2, 6, 4, 1]));
    for (text, at) in [("id id", 1), ("id +", 2), ("", 0), ("( id", 2), (")", 0)] {
        assert_eq!(table.parse(&tokens(&table, text)), Err(TableError::Unexpected { at }));
    }
    // what no terminal is, and the end
    assert_eq!(table.parse(&[1 << 40]), Err(TableError::Unexpected { at: 0 }));
    assert_eq!(table.parse(&[0]), Err(TableError::Unexpected { at: 0 }));
    assert_eq!((table.terminal("-"), table.name(0)), (None, "$end"));
    assert_eq!((table.terminal("'+'"), table.rules()), (table.terminal("+"), 7));
}

#[test]
fn sentences_are_parsed_by_their_derivations() {
    for grammar in [
        EXPRESSIONS,
        "%% list: %empty | list item; item: 'a' | '(' list ')' | 'b' item;",
        "%% s: 'a' s 'b' | %empty;",
        "%token NAME NUMBER %% call: NAME '(' some ')'; some: %empty | more; more: value | more ',' value; \
         value: NUMBER | call;",
    ] {
        let table = Table::new(grammar).unwrap();
        for _ in 0..ROUNDS {
            let mut tokens = Vec::new();
            sentence(&table, table.rule(0).1[0], rand::rng().random_range(0..12), &mut tokens);
            assert_eq!(derived(&table, &table.parse(&tokens).unwrap()), tokens);
        }
    }
}

#[test]
fn a_text_that_is_no_grammar_is_refused_where_it_is_none() {
    for (text, line, column) in [("%% s: x;", 1, 7), ("", 1, 1), ("%token A\n%% s: A B;", 2, 9)] {
        assert_eq!(Table::new(text).err(), Some(TableError::Text { line, column }), "{text}");
    }
}

#[test]
fn a_parser_that_reduces_without_end_is_stopped() {
    // the lowest rule is chosen again and again
    let table = Table::new("%% s: t; t: t | 'x';").unwrap();
    let parsed = table.parse(&tokens(&table, "x"));
    assert!(matches!(parsed, Ok(_) | Err(TableError::TooLong)), "{parsed:?}");
}
