//! A case of a price file and a book to write one from.

use std::path::Path;

use second::calls::THEIRS;
use second::compare::hex;
use second::counts::Counts;
use second::file_cases::FileCase;
use second::file_compare::{compare_file, FileCall, FILE_CALLS};
use second::shrink::shrunk_file;

use crate::compared::{print_clipped, Compared, Differ};

impl Compared for FileCase {
    fn held(&self, _: Option<&Path>, counts: &mut Counts) -> Result<(), Differ<FileCase>> {
        for call in FILE_CALLS {
            let (outcome, difference) = compare_file(call, &THEIRS, self);
            if difference.is_some() {
                return Err(Box::new(move |case| compare_file(call, &THEIRS, case).1));
            }
            counts.file_call(call, outcome.answer.number());
        }
        Ok(())
    }

    fn shrunk(&self, still: &dyn Fn(&FileCase) -> bool) -> FileCase {
        shrunk_file(self, still)
    }

    fn print_inputs(&self, call: &str) {
        let inputs = self.inputs();
        if call.starts_with(FileCall::Read.name()) {
            let shown: String = inputs.file.iter().flat_map(|byte| byte.escape_ascii()).map(char::from).collect();
            print_clipped("file", &shown);
        } else {
            print_clipped("book", &hex(&inputs.book));
        }
    }
}
