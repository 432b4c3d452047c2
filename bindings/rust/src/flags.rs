//! The flags of requests and dequeues.

use std::ops::BitOr;

/// Defines a set of flags of a step.
macro_rules! flags {
    ($(#[$doc:meta])* $name:ident of $step:literal { $($(#[$flag_doc:meta])* $flag:ident = $bits:literal;)* }) => {
        $(#[$doc])*
        #[derive(Clone, Copy, Debug, Default, PartialEq, Eq, Hash)]
        pub struct $name(pub(crate) u16);

        impl $name {
            $($(#[$flag_doc])* pub const $flag: $name = $name($bits);)*

            #[doc = concat!("The flags of these bits. ", $step, " with a bit that is none of the above is refused by ")]
            /// BADPARAM.
            pub const fn from_bits(bits: u16) -> $name {
                $name(bits)
            }

            /// The bits of the flags.
            pub const fn bits(self) -> u16 {
                self.0
            }

            /// Whether each of the other flags is one of these.
            pub const fn contains(self, others: $name) -> bool {
                self.0 & others.0 == others.0
            }
        }

        impl BitOr for $name {
            type Output = $name;

            fn bitor(self, other: $name) -> $name {
                $name(self.0 | other.0)
            }
        }
    };
}

flags! {
    /// Flags of a new request or a conversion ($ENQ, flags). They are joined by `|`.
    EnqFlags of "A request" {
        /// The value block is returned or written.
        VALBLK = 1;
        /// Refused where it can't be granted at once.
        NOQUEUE = 2;
        /// Answers SYNCH where it is granted at once.
        SYNCSTS = 4;
        /// A root of the system's domain.
        SYSTEM = 8;
        /// A new request at NL is granted whatever is queued.
        EXPEDITE = 16;
        /// A conversion waits after those that are queued.
        QUECVT = 32;
        /// It waits for nobody in a search for a deadlock.
        NODLCKWT = 64;
        /// Nobody waits for it in a search for a deadlock.
        NODLCKBLK = 128;
        /// With VALBLK, the value block's 64 bytes (this project's own).
        WIDE = 256;
    }
}

impl EnqFlags {
    /// Those of a request that waits or has a completion routine. Each grant is told alike, so without SYNCSTS.
    pub(crate) fn waiting(self) -> EnqFlags {
        EnqFlags(self.0 & !EnqFlags::SYNCSTS.0)
    }

    /// Those of a conversion that writes a value, with or without a tail, or nothing.
    pub(crate) fn writing(self, has_tail: Option<bool>) -> EnqFlags {
        let value_flags = EnqFlags::VALBLK | EnqFlags::WIDE;
        let others = EnqFlags(self.0 & !value_flags.0);
        match has_tail {
            Some(true) => others | value_flags,
            Some(false) => others | EnqFlags::VALBLK,
            None => others,
        }
    }
}

flags! {
    /// Flags of a dequeue ($DEQ, flags). They are joined by `|`.
    DeqFlags of "A dequeue" {
        /// All locks below a lock, or where none is named all of the caller.
        DEQALL = 1;
        /// The request is cancelled.
        CANCEL = 2;
        /// The value block is marked invalid.
        INVVALBLK = 4;
    }
}
