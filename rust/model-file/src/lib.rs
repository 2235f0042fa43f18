// SPDX-License-Identifier: Apache-2.0 OR MIT
//! Model files: the form in which the payout checker reads a Quanta contract.
//!
//! [`encode`] writes a contract as a model file, [`decode`] asks the file's own
//! questions (1 to 8) and gives back the contract. [`Field`] is the file as a
//! plain tree of fields, for tools that change files without knowing Quanta.
//!
//! ```
//! let file = [0x03, 0x00, 0x04, 0x20, 0x00, 0x01, b'f'];
//! let contract = model_file::decode(&file).unwrap();
//! assert_eq!(model_file::encode(&contract).unwrap(), file);
//! ```

mod decode;
mod encode;
mod field;
pub mod tag;

pub use decode::{decode, Refusal, DEPTH_LIMIT, ENTRY_LIMIT, SIZE_LIMIT};
pub use encode::encode;
pub use field::{read, write, Content, EncodeError, Field};
