//! Why bytes are no state file.

use crate::figures::grouped;
use rotundaaloe::journal;
use rotundaaloe::refusal::Load;
use rotundaaloe::state::FILE_BYTES;

/// The refusal's word, and what a person can see of the reason.
pub fn explain(bytes: &[u8], refusal: Load) -> String {
    let [there, whole] = [bytes.len(), FILE_BYTES].map(grouped);
    let reason = match refusal {
        Load::NotState if bytes.is_empty() => "it has no bytes",
        Load::NotState if bytes.starts_with(journal::MARK) => {
            "it is a journal, which 'keylock trace' explains"
        }
        Load::NotState => "it doesn't begin with KLS and a line feed",
        Load::OtherLayout => "it is of another version",
        Load::Broken if bytes.len() < FILE_BYTES => &format!("cut short, {there} of {whole} bytes"),
        Load::Broken if bytes.len() > FILE_BYTES => &format!("it goes on after {whole} bytes"),
        Load::Broken => "some of its bytes have changed",
    };
    format!("{refusal}: {reason}")
}
