//! The proved library and the second program behind one form, for whoever runs both: `compare` and `bench`.
//! What they hand back is all the numbers of the C interface, also after a refusal, so that each is compared.
#![forbid(unsafe_code)]

use library::Request;
use library::numbers::{self, Report};

/// A station: it is lent a request, a ledger and an output buffer.
pub type Station = fn(&Request, &mut [u8], &mut [u8]) -> Report;

/// The proved library's.
pub fn proved(request: &Request, ledger: &mut [u8], out: &mut [u8]) -> Report {
    numbers::deidentify(request, ledger, out)
}

/// The second program's.
pub fn second(request: &Request, ledger: &mut [u8], out: &mut [u8]) -> Report {
    let Request { data, options, shift, root, study, site, used } = *request;
    let reference::Report { refusal, offset, length, used, kept, replaced, renamed, removed } =
        reference::deidentify(data, options, shift, root, study, site, ledger, used, out);
    Report { refusal, offset, length, used, kept, replaced, renamed, removed }
}
