//! One call of the boundary, with everything it is given.

use super::{Lent, Outcome};
use crate::library::Library;
use std::borrow::Cow;

type Bytes<'a> = Cow<'a, [u8]>;

/// One call, with everything it is given. Buffers that are only written are
/// given by their lengths, but for those of a certificate and of a playing: of
/// them it is seen that they, or their ends, stay.
#[derive(Clone)]
pub enum Call<'a> {
    Decode { image: Bytes<'a>, address: u32, bank: u32, out: usize },
    Write { fields: Bytes<'a>, out: usize },
    Reset { state: Bytes<'a> },
    Store { state: Bytes<'a>, address: u32, value: u32 },
    Step { image: Bytes<'a>, state: Bytes<'a>, request: u32 },
    Run { image: Bytes<'a>, state: Bytes<'a>, requests: Bytes<'a>, n: u32, report: usize },
    Check { image: Bytes<'a>, certificate: Bytes<'a>, wired: u32 },
    Job { job: Bytes<'a>, line: usize },
    Width { image: Bytes<'a>, certificate: Bytes<'a>, count: u32 },
    Make { image: Bytes<'a>, wired: u32, out: Bytes<'a> },
    Read { image: Bytes<'a>, state: Bytes<'a>, address: u32 },
    Play { image: Bytes<'a>, record: Bytes<'a>, state: Bytes<'a>, report: Bytes<'a> },
}

impl Call<'_> {
    /// The place of its name in `KINDS`.
    pub fn kind(&self) -> usize {
        match self {
            Call::Decode { .. } => 0,
            Call::Write { .. } => 1,
            Call::Reset { .. } => 2,
            Call::Store { .. } => 3,
            Call::Step { .. } => 4,
            Call::Run { .. } => 5,
            Call::Check { .. } => 6,
            Call::Job { .. } => 7,
            Call::Width { .. } => 8,
            Call::Make { .. } => 9,
            Call::Read { .. } => 10,
            Call::Play { .. } => 11,
        }
    }

    /// What is lent to the call: the state, also where it is only read, and
    /// the buffer that it writes.
    fn lent(&self) -> (Lent, Lent) {
        let state = match self {
            Call::Reset { state }
            | Call::Store { state, .. }
            | Call::Step { state, .. }
            | Call::Run { state, .. }
            | Call::Read { state, .. }
            | Call::Play { state, .. } => Lent::holding(state),
            _ => Lent::none(),
        };
        let out = match self {
            Call::Decode { out: length, .. }
            | Call::Write { out: length, .. }
            | Call::Run { report: length, .. }
            | Call::Job { line: length, .. } => Lent::of_length(*length),
            Call::Make { out, .. } | Call::Play { report: out, .. } => Lent::holding(out),
            _ => Lent::none(),
        };
        (state, out)
    }

    pub fn play(&self, library: &Library) -> Outcome {
        let (mut state, mut out) = self.lent();
        let answer = match self {
            Call::Decode { image, address, bank, .. } => {
                (library.decode)(image, *address, *bank, out.buffer())
            }
            Call::Write { fields, .. } => (library.write)(fields, out.buffer()),
            Call::Reset { .. } => (library.reset)(state.buffer()),
            Call::Store { address, value, .. } => (library.store)(state.buffer(), *address, *value),
            Call::Step { image, request, .. } => (library.step)(image, state.buffer(), *request),
            Call::Run { image, requests, n, .. } => {
                (library.run)(image, state.buffer(), requests, *n, out.buffer())
            }
            Call::Check { image, certificate, wired } => {
                (library.check)(image, certificate, *wired)
            }
            Call::Job { job, .. } => (library.job)(job, out.buffer()),
            Call::Width { image, certificate, count } => {
                (library.width)(image, certificate, *count)
            }
            Call::Make { image, wired, .. } => (library.make)(image, *wired, out.buffer()),
            Call::Read { image, address, .. } => (library.read)(image, state.bytes(), *address),
            Call::Play { image, record, .. } => {
                (library.play)(image, record, state.buffer(), out.buffer())
            }
        };
        Outcome { answer, state, out }
    }

    /// The image that it is given, if any.
    pub fn image(&self) -> Option<&[u8]> {
        match self {
            Call::Decode { image, .. }
            | Call::Step { image, .. }
            | Call::Run { image, .. }
            | Call::Check { image, .. }
            | Call::Width { image, .. }
            | Call::Make { image, .. }
            | Call::Read { image, .. }
            | Call::Play { image, .. } => Some(image),
            Call::Write { .. } | Call::Reset { .. } | Call::Store { .. } | Call::Job { .. } => None,
        }
    }

    /// Whether a state that was lent only to be read is what it was.
    pub fn keeps_state(&self, outcome: &Outcome) -> bool {
        match self {
            Call::Read { state, .. } => outcome.state.bytes() == &state[..],
            _ => true,
        }
    }

    /// Whether the call has written a machine, if it gave this number. A
    /// playing has where an entry was refused or stopped: the one before it.
    pub(super) fn writes_machine(&self, number: u8) -> bool {
        match self {
            Call::Play { .. } => matches!(number, 0 | 4..=7 | 10 | 11),
            _ => matches!(number, 0 | 4..=7),
        }
    }

    /// Whether two calls are given the same bytes.
    pub fn same_bytes(&self, other: &Call) -> bool {
        let strings = |call: &Self| call.clone().into_owned().strings_owned();
        strings(self) == other.clone().into_owned().strings_owned()
    }

    fn strings_owned(mut self) -> Vec<Vec<u8>> {
        self.strings().into_iter().map(std::mem::take).collect()
    }

    pub fn into_owned(self) -> Call<'static> {
        let own = |bytes: Bytes| Cow::Owned(bytes.into_owned());
        match self {
            Call::Decode { image, address, bank, out } => {
                Call::Decode { image: own(image), address, bank, out }
            }
            Call::Write { fields, out } => Call::Write { fields: own(fields), out },
            Call::Reset { state } => Call::Reset { state: own(state) },
            Call::Store { state, address, value } => {
                Call::Store { state: own(state), address, value }
            }
            Call::Step { image, state, request } => {
                Call::Step { image: own(image), state: own(state), request }
            }
            Call::Run { image, state, requests, n, report } => {
                let [image, state, requests] = [image, state, requests].map(own);
                Call::Run { image, state, requests, n, report }
            }
            Call::Check { image, certificate, wired } => {
                Call::Check { image: own(image), certificate: own(certificate), wired }
            }
            Call::Job { job, line } => Call::Job { job: own(job), line },
            Call::Width { image, certificate, count } => {
                Call::Width { image: own(image), certificate: own(certificate), count }
            }
            Call::Make { image, wired, out } => {
                Call::Make { image: own(image), wired, out: own(out) }
            }
            Call::Read { image, state, address } => {
                Call::Read { image: own(image), state: own(state), address }
            }
            Call::Play { image, record, state, report } => {
                let [image, record, state, report] = [image, record, state, report].map(own);
                Call::Play { image, record, state, report }
            }
        }
    }

    /// The byte strings of the call, to be made smaller.
    pub(super) fn strings(&mut self) -> Vec<&mut Vec<u8>> {
        match self {
            Call::Decode { image, .. } => vec![image.to_mut()],
            Call::Write { fields, .. } => vec![fields.to_mut()],
            Call::Reset { state } | Call::Store { state, .. } => vec![state.to_mut()],
            Call::Step { image, state, .. } | Call::Read { image, state, .. } => {
                vec![state.to_mut(), image.to_mut()]
            }
            Call::Run { image, state, requests, .. } => {
                vec![requests.to_mut(), state.to_mut(), image.to_mut()]
            }
            Call::Check { image, certificate, .. } | Call::Width { image, certificate, .. } => {
                vec![certificate.to_mut(), image.to_mut()]
            }
            Call::Job { job, .. } => vec![job.to_mut()],
            Call::Make { image, out, .. } => vec![out.to_mut(), image.to_mut()],
            Call::Play { image, record, state, report } => {
                vec![state.to_mut(), report.to_mut(), record.to_mut(), image.to_mut()]
            }
        }
    }

    /// The numbers of the call, to be made smaller.
    pub(super) fn numbers(&mut self) -> Vec<&mut u32> {
        match self {
            Call::Decode { address, bank, .. } => vec![address, bank],
            Call::Read { address, .. } => vec![address],
            Call::Store { address, value, .. } => vec![address, value],
            Call::Step { request, .. } => vec![request],
            Call::Run { n, .. } => vec![n],
            Call::Check { wired, .. } | Call::Make { wired, .. } => vec![wired],
            Call::Width { count, .. } => vec![count],
            Call::Write { .. } | Call::Reset { .. } | Call::Job { .. } | Call::Play { .. } => {
                vec![]
            }
        }
    }
}
