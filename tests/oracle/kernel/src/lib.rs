//! Stand-ins for the parts of Tock's kernel that `Log` uses, written from document 01 ("a taken cell is empty until replaced, a deferred
//! call is made once later, the driver answers OK, BUSY or FAIL when started") and from what the file asks of them. Only that much is here.

/// What went wrong. The numbers are those of document 01's table.
#[derive(Clone, Copy, Debug, PartialEq, Eq)]
#[allow(clippy::upper_case_acronyms)]
pub enum ErrorCode {
    FAIL = 1,
    BUSY = 2,
    RESERVE = 5,
    INVAL = 6,
    SIZE = 7,
    CANCEL = 8,
    NODEVICE = 11,
}

pub mod deferred_call {
    use std::sync::atomic::{AtomicBool, Ordering};

    /// Whether a deferred call has been asked for and not been made. There is one log at a time, so there is one flag.
    static DUE: AtomicBool = AtomicBool::new(false);

    /// Takes the flag: a deferred call is made once.
    pub fn take_due() -> bool {
        DUE.swap(false, Ordering::Relaxed)
    }

    pub trait DeferredCallClient {
        fn handle_deferred_call(&self);
        fn register(&'static self);
    }

    #[derive(Default)]
    pub struct DeferredCall;

    impl DeferredCall {
        pub fn new() -> Self {
            DeferredCall
        }

        pub fn set(&self) {
            DUE.store(true, Ordering::Relaxed);
        }

        /// The bench knows the only client and calls it itself.
        pub fn register<C: DeferredCallClient>(&self, _client: &'static C) {}
    }
}

pub mod hil {
    pub mod flash {
        use crate::ErrorCode;

        /// What a completion may bring instead of success.
        #[derive(Clone, Copy, Debug, PartialEq, Eq)]
        pub enum Error {
            FlashError,
            FlashMemoryProtectionError,
        }

        /// The flash driver. A refused write gives the page back.
        pub trait Flash {
            type Page: AsMut<[u8]>;

            fn write_page(
                &self,
                page_number: usize,
                page: &'static mut Self::Page,
            ) -> Result<(), (ErrorCode, &'static mut Self::Page)>;

            fn erase_page(&self, page_number: usize) -> Result<(), ErrorCode>;
        }

        /// Who is told that an operation has ended.
        pub trait Client<F: Flash> {
            fn read_complete(&self, page: &'static mut F::Page, result: Result<(), Error>);
            fn write_complete(&self, page: &'static mut F::Page, result: Result<(), Error>);
            fn erase_complete(&self, result: Result<(), Error>);
        }
    }

    pub mod log {
        use crate::ErrorCode;

        type Refused = (ErrorCode, &'static mut [u8]);

        pub trait LogReadClient {
            fn read_done(
                &self,
                buffer: &'static mut [u8],
                length: usize,
                result: Result<(), ErrorCode>,
            );
            fn seek_done(&self, result: Result<(), ErrorCode>);
        }

        pub trait LogWriteClient {
            fn append_done(
                &self,
                buffer: &'static mut [u8],
                length: usize,
                lost: bool,
                result: Result<(), ErrorCode>,
            );
            fn sync_done(&self, result: Result<(), ErrorCode>);
            fn erase_done(&self, result: Result<(), ErrorCode>);
        }

        pub trait LogRead<'a> {
            type EntryID;

            fn set_read_client(&self, client: &'a dyn LogReadClient);
            fn read(&self, buffer: &'static mut [u8], length: usize) -> Result<(), Refused>;
            fn log_start(&self) -> Self::EntryID;
            fn log_end(&self) -> Self::EntryID;
            fn next_read_entry_id(&self) -> Self::EntryID;
            fn seek(&self, id: Self::EntryID) -> Result<(), ErrorCode>;
            fn get_size(&self) -> usize;
        }

        pub trait LogWrite<'a> {
            fn set_append_client(&self, client: &'a dyn LogWriteClient);
            fn append(&self, buffer: &'static mut [u8], length: usize) -> Result<(), Refused>;
            fn sync(&self) -> Result<(), ErrorCode>;
            fn erase(&self) -> Result<(), ErrorCode>;
        }
    }
}

pub mod utilities {
    pub mod cells {
        use std::cell::Cell;

        /// A cell that holds a copyable value or nothing.
        pub struct OptionalCell<T> {
            value: Cell<Option<T>>,
        }

        impl<T: Copy> OptionalCell<T> {
            pub fn empty() -> Self {
                OptionalCell {
                    value: Cell::new(None),
                }
            }

            pub fn set(&self, value: T) {
                self.value.set(Some(value));
            }

            pub fn is_none(&self) -> bool {
                self.value.get().is_none()
            }

            pub fn map<R>(&self, use_it: impl FnOnce(T) -> R) -> Option<R> {
                self.value.get().map(use_it)
            }
        }

        /// A cell that lends out the one reference that it holds: taken, it is empty until replaced.
        pub struct TakeCell<'a, T: ?Sized> {
            value: Cell<Option<&'a mut T>>,
        }

        impl<'a, T: ?Sized> TakeCell<'a, T> {
            pub fn empty() -> Self {
                TakeCell {
                    value: Cell::new(None),
                }
            }

            pub fn new(value: &'a mut T) -> Self {
                TakeCell {
                    value: Cell::new(Some(value)),
                }
            }

            pub fn take(&self) -> Option<&'a mut T> {
                self.value.take()
            }

            /// Puts a reference in, and gives back the one that was there.
            pub fn replace(&self, value: &'a mut T) -> Option<&'a mut T> {
                self.value.replace(Some(value))
            }
        }
    }
}
