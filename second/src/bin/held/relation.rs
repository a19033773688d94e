//! A case of a relation, with the book, the question and the properties that it is held to.

use std::path::Path;

use second::calls::THEIRS;
use second::compare::hex;
use second::counts::Counts;
use second::relation_cases::RelationCase;
use second::relation_compare::{compare_relation, RelationCall, RELATION_CALLS};
use second::shrink::shrunk_relation;

use crate::compared::{print_clipped, Compared, Differ};

impl Compared for RelationCase {
    fn held(&self, _: Option<&Path>, counts: &mut Counts) -> Result<(), Differ<RelationCase>> {
        for call in RELATION_CALLS {
            let (outcome, difference) = compare_relation(call, &THEIRS, self);
            if difference.is_some() {
                return Err(Box::new(move |case| compare_relation(call, &THEIRS, case).1));
            }
            counts.relation_call(call, outcome.answer.number());
        }
        Ok(())
    }

    fn shrunk(&self, still: &dyn Fn(&RelationCase) -> bool) -> RelationCase {
        shrunk_relation(self, still)
    }

    fn print_inputs(&self, call: &str) {
        let inputs = self.inputs();
        if call.starts_with(RelationCall::PriceDerived.name()) {
            print_clipped("book", &hex(&inputs.book));
        }
        print_clipped("question", &hex(&inputs.question));
        print_clipped("properties", &hex(&inputs.properties));
        print_clipped("relation", &inputs.relation.escape_ascii().to_string());
    }
}
