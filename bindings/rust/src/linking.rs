//! Where build.rs found no library, its sentence is the error of whatever is compiled to be linked. An assembler's error comes just
//! then: documentation and checks are not assembled.

#[cfg(rafttwine_not_found)]
core::arch::global_asm!(concat!(".error \"", env!("RAFTTWINE_NOT_FOUND"), "\""), options(raw));
