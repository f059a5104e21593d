//! What an auditor has to read: the definitions that the contracts of the exported calls and the closing
//! theorems cite, those that these cite in turn, and so on. A definition that only a contract inside the
//! library or a proof cites isn't among them.
//!
//! Reach is by names, declaration by declaration. A name that a pattern, a λ, a `let`, a binder or an earlier
//! field of the same record binds is no citation, nor is a field's name after a dot or in a record. A name
//! that is neither bound, declared, imported nor the prelude's is a fault, so that nothing is left out unseen.

pub mod antt;
pub mod citations;
pub mod print;
pub mod rattle;
pub mod reach;
pub mod reading;
pub mod repository;
pub mod roots;
pub mod words;
