//! Each rule turns its source into its result, and nothing else.
use erase::honesty;
use erase::lexer::tokens;
use erase::rules::rules;
use erase::text::Text;

#[test]
fn each_rule_turns_its_source_into_its_result() {
    for rule in rules() {
        let mut text = Text::new("a test", "base", false, rule.source).unwrap();
        text.rule = rule.name;
        (rule.apply)(&mut text).unwrap();
        let words = |source: &str| tokens("a test", source).unwrap().into_iter().map(|token| token.text).collect::<Vec<_>>();
        assert_eq!(words(&text.rendered()), words(rule.result), "{}:\n{}", rule.name, text.rendered());
        honesty::check(&text).unwrap();
    }
}
