//! Enums that may get variants: a caller has an arm for them. Without the attribute that arm would be unreachable, which is an error in the gate.
use pulleynavy::*;

fn edit(edit: &Edit<'_>) -> u8 {
    match edit {
        Edit::Append(_) => 0,
        Edit::Replace(_) => 1,
        Edit::Remove(_) => 2,
        Edit::Keep(_) => 3,
        _ => 4,
    }
}

fn head(head: &PartHead<'_>) -> u8 {
    match head {
        PartHead::Custom { .. } => 0,
        PartHead::Items { .. } => 1,
        PartHead::Unknown { .. } => 2,
        PartHead::Body => 3,
        _ => 4,
    }
}

fn lead(lead: Lead) -> u8 {
    match lead {
        Lead::BranchHint | Lead::BranchTaken | Lead::ComdatSymbol | Lead::Symbol | Lead::Reloc => 0,
        Lead::External | Lead::Value | Lead::Reference | Lead::Heap | Lead::Composite | Lead::Mutability => 1,
        _ => 2,
    }
}

#[test]
fn enums_may_get_variants() {
    assert_eq!(edit(&Edit::Keep("name")), 3);
    assert_eq!(head(&PartHead::Body), 3);
    assert_eq!(lead(Lead::Heap), 1);
}
