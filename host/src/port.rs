//! The port, behind one trait: linked through its C entry points (feature `port`), or anything that claims to behave like it.
use crate::model::{self, Answer, Call, Return};

/// What the port offers. An `Err` says how a call broke its contract in a way that no answer can show.
pub trait Port {
    fn filter(&self, call: &Call) -> Result<Return, String>;
    fn prepare(&self, mask: &[u8], stated: Option<u64>, asked: bool, list: &[u32]) -> Result<(Answer, Vec<u32>), String>;
    fn check(&self, pack: &[u8]) -> u64;
    fn check_mask(&self, mask: &[u8]) -> u64;
}

/// The model as a port.
pub struct Model;

impl Port for Model {
    fn filter(&self, call: &Call) -> Result<Return, String> {
        Ok(model::filter(call))
    }
    fn prepare(&self, mask: &[u8], stated: Option<u64>, asked: bool, list: &[u32]) -> Result<(Answer, Vec<u32>), String> {
        Ok(model::prepare(mask, stated, asked, list))
    }
    fn check(&self, pack: &[u8]) -> u64 {
        model::check(pack)
    }
    fn check_mask(&self, mask: &[u8]) -> u64 {
        model::check_mask(mask)
    }
}

#[cfg(feature = "port")]
pub use linked::Linked;

/// The C entry points of include/wurtziteloom.h, safe to call: slices in, the number returned.
#[cfg(feature = "port")]
pub mod entry {
    mod c {
        unsafe extern "C" {
            pub fn filter(
                mask: *const u8,
                mask_len: usize,
                journal: *const u8,
                journal_len: usize,
                stated: bool,
                count: u64,
                asked: bool,
                list: *mut u32,
                list_len: usize,
                scratch: *mut u8,
                scratch_len: usize,
                output: *mut u8,
                output_len: usize,
                answer: *mut u64,
            ) -> u64;
            pub fn prepare(
                mask: *const u8,
                mask_len: usize,
                stated: bool,
                count: u64,
                asked: bool,
                list: *mut u32,
                list_len: usize,
                answer: *mut u64,
            ) -> u64;
            pub fn check(pack: *const u8, len: usize) -> u64;
            pub fn check_mask(mask: *const u8, len: usize) -> u64;
        }
    }

    /// What is passed as the count where none is stated: it must not matter.
    const NOT_STATED: u64 = 0x8000_0000_0000_0003;

    /// What a call lends to be written.
    pub struct Lent<'a> {
        pub list: &'a mut [u32],
        pub scratch: &'a mut [u8],
        pub output: &'a mut [u8],
    }

    pub fn filter(mask: &[u8], journal: &[u8], stated: Option<u64>, asked: bool, lent: Lent, answer: &mut [u64; 4]) -> u64 {
        // SAFETY: each pointer is that of a slice and goes with its length; what is written is borrowed for that
        unsafe {
            c::filter(
                mask.as_ptr(),
                mask.len(),
                journal.as_ptr(),
                journal.len(),
                stated.is_some(),
                stated.unwrap_or(NOT_STATED),
                asked,
                lent.list.as_mut_ptr(),
                lent.list.len(),
                lent.scratch.as_mut_ptr(),
                lent.scratch.len(),
                lent.output.as_mut_ptr(),
                lent.output.len(),
                answer.as_mut_ptr(),
            )
        }
    }

    pub fn prepare(mask: &[u8], stated: Option<u64>, asked: bool, list: &mut [u32], answer: &mut [u64; 4]) -> u64 {
        let count = stated.unwrap_or(NOT_STATED);
        // SAFETY: as above
        unsafe {
            c::prepare(
                mask.as_ptr(),
                mask.len(),
                stated.is_some(),
                count,
                asked,
                list.as_mut_ptr(),
                list.len(),
                answer.as_mut_ptr(),
            )
        }
    }

    pub fn check(pack: &[u8]) -> u64 {
        // SAFETY: as above
        unsafe { c::check(pack.as_ptr(), pack.len()) }
    }

    pub fn check_mask(mask: &[u8]) -> u64 {
        // SAFETY: as above
        unsafe { c::check_mask(mask.as_ptr(), mask.len()) }
    }
}

#[cfg(feature = "port")]
mod linked {
    use super::entry::{self, Lent};
    use super::*;
    use crate::model::{Named, Route};

    /// Elements before and behind each buffer; odd, so that byte buffers stand at odd places.
    const GUARD: usize = 37;

    /// A copy of a slice with guards around it.
    struct Guarded<T>(Vec<T>);

    impl<T: Copy + PartialEq + From<u8>> Guarded<T> {
        fn new(inner: &[T]) -> Self {
            let guard = |i: usize| T::from(0xA0 ^ i as u8);
            Self((0..GUARD).map(guard).chain(inner.iter().copied()).chain((0..GUARD).map(guard)).collect())
        }
        fn inner(&self) -> &[T] {
            &self.0[GUARD..self.0.len() - GUARD]
        }
        fn inner_mut(&mut self) -> &mut [T] {
            let end = self.0.len() - GUARD;
            &mut self.0[GUARD..end]
        }
        /// What stands inside, once the guards are seen to be whole.
        fn open(self, name: &str) -> Result<Vec<T>, String> {
            match Self::new(self.inner()).0 == self.0 {
                true => Ok(self.inner().to_vec()),
                false => Err(format!("{name}: touched outside")),
            }
        }
        /// Only read: nothing may have changed.
        fn unchanged(self, old: &[T], name: &str) -> Result<(), String> {
            match self.open(name)? == old {
                true => Ok(()),
                false => Err(format!("{name}: changed")),
            }
        }
    }

    /// The linked library, each buffer copied between guards.
    pub struct Linked;

    fn decode(returned: u64, answer: Vec<u64>) -> Result<Answer, String> {
        let answer: [u64; 4] = answer.try_into().unwrap();
        match (returned, answer) {
            (0, [kept, slots, route @ 0..=3, bytes]) => {
                let route = [Route::None, Route::All, Route::Slices, Route::Indices][route as usize];
                Ok(Answer::Done { kept, slots, route, bytes })
            }
            (number @ 1.., [again, pack @ 0..=1, 0, 0]) if number == again => {
                Ok(Answer::Refused { number, pack: [Named::Mask, Named::Journal][pack as usize] })
            }
            _ => Err(format!("returned {returned} with answer {answer:?}")),
        }
    }

    impl Port for Linked {
        fn filter(&self, call: &Call) -> Result<Return, String> {
            let (mask, journal, mut list) = (Guarded::new(call.mask), Guarded::new(call.journal), Guarded::new(call.list));
            let (mut scratch, mut output, mut answer) =
                (Guarded::new(call.scratch), Guarded::new(call.output), Guarded::new(&[7u64; 4]));
            let lent = Lent { list: list.inner_mut(), scratch: scratch.inner_mut(), output: output.inner_mut() };
            let four = answer.inner_mut().try_into().unwrap();
            let returned = entry::filter(mask.inner(), journal.inner(), call.stated, call.asked, lent, four);
            mask.unchanged(call.mask, "mask")?;
            journal.unchanged(call.journal, "journal")?;
            Ok(Return {
                answer: decode(returned, answer.open("answer")?)?,
                output: output.open("output")?,
                list: list.open("list")?,
                scratch: scratch.open("scratch")?,
            })
        }

        fn prepare(&self, mask: &[u8], stated: Option<u64>, asked: bool, list: &[u32]) -> Result<(Answer, Vec<u32>), String> {
            let (guarded, mut list, mut answer) = (Guarded::new(mask), Guarded::new(list), Guarded::new(&[7u64; 4]));
            let four = answer.inner_mut().try_into().unwrap();
            let returned = entry::prepare(guarded.inner(), stated, asked, list.inner_mut(), four);
            guarded.unchanged(mask, "mask")?;
            Ok((decode(returned, answer.open("answer")?)?, list.open("list")?))
        }

        fn check(&self, pack: &[u8]) -> u64 {
            entry::check(Guarded::new(pack).inner())
        }

        fn check_mask(&self, mask: &[u8]) -> u64 {
            entry::check_mask(Guarded::new(mask).inner())
        }
    }
}
