//! The structs of the answers, as the second implementation and as the Rust bindings declare them: the document gives each field's
//! offset and the whole's size as the compiler does.

use crate::document::Document;
use rafttwine::raw;
use std::mem::{offset_of, size_of};

macro_rules! offsets {
    ($type:ty, $other:ty: $($field:ident)*) => {
        [
            vec![$((stringify!($field).to_string(), offset_of!($type, $field)),)* ("whole".to_string(), size_of::<$type>())],
            vec![$((stringify!($field).to_string(), offset_of!($other, $field)),)* ("whole".to_string(), size_of::<$other>())],
        ]
    };
}

/// True if all offsets are right.
pub fn good(document: &Document) -> bool {
    let structs = [
        (
            "rafttwine_price_answer",
            offsets!(second::PriceAnswer, raw::PriceAnswer: unit total lines unused unused_count number currency),
        ),
        (
            "rafttwine_derived_answer",
            offsets!(second::DerivedAnswer, raw::DerivedAnswer: unit total lines place unused unused_count number currency),
        ),
        ("rafttwine_calendar_answer", offsets!(second::CalendarAnswer, raw::CalendarAnswer: length number)),
        ("rafttwine_written", offsets!(second::Written, raw::Written: length number)),
        ("rafttwine_placed", offsets!(second::Placed, raw::Placed: length place number)),
        ("rafttwine_stretch", offsets!(second::Stretch, raw::StretchRecord: first last unit refusal currency)),
        ("rafttwine_packaging_answer", offsets!(second::PackagingAnswer, raw::PackagingAnswer: gross values number present units)),
        ("rafttwine_text_answer", offsets!(second::TextAnswer, raw::TextAnswer: place length number book)),
    ];
    let mut good = true;
    for (name, compiled) in &structs {
        let told = document.offsets(name);
        for due in compiled.iter().filter(|due| **due != told) {
            good = false;
            println!("WRONG, {name}: due {due:?}\n    the document has {told:?}");
        }
    }
    println!("{} structs with their offsets in the document", structs.len());
    good
}
