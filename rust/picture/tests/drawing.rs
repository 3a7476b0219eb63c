//! The drawing, with charts that the reference makes: what it names.

use picture::names::Names;
use picture::tree::{tree, Tree};
use tables::worked::{AMB, COPY, VERB};

mod examples;
use examples::{goal_tree, EXAMPLES};

fn drawn(text: &str, sentence: &[u16]) -> String {
    picture::draw(&goal_tree(text, sentence), &Names::default())
}

fn verb_names() -> Names {
    Names::of("verb.words", b"1 we\n3 pick\n4 up\n7 the\n8 child\n").expect("a words file")
}

#[test]
fn the_nodes_of_copy_have_their_words_in_both_halves() {
    let tree = goal_tree(COPY, &[7, 7, 7, 7]);
    let nodes: Vec<(u16, u16, usize, &[usize])> = tree
        .nodes
        .iter()
        .map(|node| (node.category, node.function, node.depth, &node.words[..]))
        .collect();
    let expected: [(u16, u16, usize, &[usize]); 4] =
        [(1, 10, 0, &[]), (2, 21, 1, &[0, 2]), (2, 21, 2, &[1, 3]), (2, 20, 3, &[])];
    assert_eq!(nodes, expected);
}

#[test]
fn the_halves_of_a_verb_stand_apart() {
    let tree = goal_tree(VERB, &[1, 3, 7, 8, 4]);
    let verb = tree.nodes.iter().find(|node| node.function == 21).expect("the verb");
    assert_eq!((&verb.words[..], verb.depth), (&[1, 4][..], 1));
    assert_eq!(tree.nodes[0].daughters, [1, 2, 3]);
}

#[test]
fn every_word_of_the_sentence_belongs_to_one_node() {
    for (text, sentence) in EXAMPLES {
        let tree = goal_tree(text, sentence);
        let mut words: Vec<usize> = tree.nodes.iter().flat_map(|node| node.words.clone()).collect();
        words.sort();
        assert_eq!(words, (0..sentence.len()).collect::<Vec<usize>>());
    }
}

#[test]
fn the_picture_names_categories_functions_and_words() {
    let svg = drawn(VERB, &[1, 3, 7, 8, 4]);
    for label in [">A1<", ">A3<", ">21<", ">31<", ">8<"] {
        assert!(svg.contains(label), "{label}");
    }
    assert_eq!(svg.matches("class=\"node\"").count(), 4);
    assert_eq!(svg.matches("class=\"word\"").count(), 5);
    assert_eq!(svg.matches("class=\"empty\"").count(), 0);
}

#[test]
fn words_that_have_a_name_are_shown_by_it() {
    let svg = picture::draw(&goal_tree(VERB, &[1, 3, 7, 8, 4]), &verb_names());
    for label in [">we<", ">pick<", ">the<", ">child<", ">up<"] {
        assert!(svg.contains(label), "{label}");
    }
    let names = Names::of("amb.words", "9 <&>".as_bytes()).expect("a words file");
    assert!(picture::draw(&goal_tree(AMB, &[9]), &names).contains(">&lt;&amp;&gt;<"));
}

#[test]
fn the_outline_shows_each_node_with_its_words() {
    let tree = goal_tree(VERB, &[1, 3, 7, 8, 4]);
    assert_eq!(
        picture::outline::outline(&tree, &verb_names()),
        "  A1 by 1\n    A2 by 11: we\n    A3 by 21: pick .. up\n    A4 by 31: the child\n"
    );
    assert_eq!(picture::outline::sentence(&tree.words, &verb_names()), "we pick the child up");
    assert_eq!(picture::outline::sentence(&[], &verb_names()), "(no words)");
}

#[test]
fn an_empty_phrase_has_its_mark() {
    assert_eq!(drawn(COPY, &[7, 7, 7, 7]).matches("class=\"empty\"").count(), 1);
    assert_eq!(drawn(COPY, &[]).matches("class=\"empty\"").count(), 1);
}

#[test]
fn the_picture_is_well_formed() {
    for (text, sentence) in EXAMPLES {
        let svg = drawn(text, sentence);
        let closed = svg.matches("/>").count() + svg.matches("</").count();
        let opened = svg.matches('<').count() - svg.matches("</").count();
        assert_eq!(opened, closed);
        assert!(svg.starts_with("<svg ") && svg.ends_with("</svg>\n") && !svg.contains("NaN"));
    }
}

#[test]
fn what_can_not_be_drawn_has_no_tree() {
    let (table, words) = (tables::table(AMB), tables::words(&[9]));
    let chart = [1, 2, 1, 0, 1, 0, 0, 0, 0, 0, 0, 0];
    let drawn = |table: &[u8], words: &[u8], count, root| -> Option<Tree> {
        tree(table, words, &chart, count, root)
    };
    assert!(drawn(&table, &words, 1, 0).is_some());
    assert!(drawn(&table[..9], &words, 1, 0).is_none(), "a cut table");
    assert!(drawn(&table, &[0, 0], 1, 0).is_none(), "a zero word");
    assert!(drawn(&table, &words, 2, 0).is_none(), "a wrong count");
    assert!(drawn(&table, &words, 1, 1).is_none(), "no such record");
}
