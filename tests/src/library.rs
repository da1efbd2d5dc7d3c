//! The boundary's functions, declared once. From this list come the table of
//! an implementation's functions, which the second emulator, the proved
//! library and the mock must fit, and the library's C declarations.

/// Hands the list to a macro: the library's symbol, the name here, and the
/// parameters. Every function answers with one packed number.
macro_rules! functions {
    ($to:ident) => {
        $to! {
            st62_decode decode(image: &[u8], address: u32, bank: u32, out: &mut [u8]);
            st62_write write(fields: &[u8], out: &mut [u8]);
            st62_reset reset(state: &mut [u8]);
            st62_store store(state: &mut [u8], address: u32, value: u32);
            st62_step step(image: &[u8], state: &mut [u8], request: u32);
            st62_run run(image: &[u8], state: &mut [u8], requests: &[u8], n: u32,
                report: &mut [u8]);
            st62_check check(image: &[u8], certificate: &[u8], wired: u32);
            st62_job job(job: &[u8], line: &mut [u8]);
            st62_width width(image: &[u8], certificate: &[u8], count: u32);
            st62_make make(image: &[u8], wired: u32, out: &mut [u8]);
            st62_read read(image: &[u8], state: &[u8], address: u32);
            st62_play play(image: &[u8], record: &[u8], state: &mut [u8], report: &mut [u8]);
        }
    };
}

macro_rules! table {
    ($($symbol:ident $name:ident $parameters:tt;)*) => {
        /// The functions of one implementation.
        pub struct Library {
            $(pub $name: fn $parameters -> u64,)*
        }

        pub const SECOND: Library = Library { $($name: crate::boundary::$name,)* };

        #[cfg(feature = "proved")]
        pub const PROVED: Library = Library { $($name: crate::proved::$name,)* };

        /// Their names, in the list's order.
        pub const KINDS: [&str; [$(stringify!($name)),*].len()] = [$(stringify!($name)),*];
    };
}

functions!(table);
