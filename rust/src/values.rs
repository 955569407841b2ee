//! The numbers of `slotroute.h` as enums.

/// An enum over numbers of the header. A number that a later library may have is `Unknown`, so each
/// number makes a value, and that value makes the number again.
macro_rules! numbers {
    ($(#[$doc:meta])* $name:ident { $($(#[$note:meta])* $variant:ident = $number:literal,)* }) => {
        $(#[$doc])*
        #[derive(Clone, Copy, Debug, PartialEq, Eq, Hash)]
        #[non_exhaustive]
        pub enum $name {
            $($(#[$note])* $variant,)*
            /// A number that this version of the crate does not know.
            Unknown(u32),
        }

        impl From<u32> for $name {
            fn from(number: u32) -> Self {
                match number {
                    $($number => Self::$variant,)*
                    number => Self::Unknown(number),
                }
            }
        }

        impl From<$name> for u32 {
            fn from(value: $name) -> Self {
                match value {
                    $($name::$variant => $number,)*
                    $name::Unknown(number) => number,
                }
            }
        }
    };
}

numbers! {
    /// Why a call has no answer. `Told` has the sizes and indices.
    Code {
        /// There is no memory.
        NoMemory = 1,
        /// A buffer is too small. The calls of this crate make it larger, and never return this.
        TooSmall = 2,
        /// More bytes can complete the request.
        RequestIncomplete = 3,
        /// No request can have the byte at `told.at` there.
        RequestMalformed = 4,
        /// Bytes follow the request, which ends at `told.at`.
        AfterRequest = 5,
        /// The request is no complete command that is split by slot.
        NotMultiKey = 6,
        /// The reply of the number `told.reply` is not complete.
        ReplyIncomplete = 7,
        /// No bytes complete that reply.
        ReplyMalformed = 8,
        /// Arrays of that reply are nested more than 32 deep.
        ReplyTooDeep = 9,
        /// That reply is an error, or holds one.
        ReplyIsError = 10,
        /// Bytes follow the last reply, which ends at `told.at`.
        AfterReplies = 11,
        /// The replies do not fit the parts.
        Unfit = 12,
        /// The replies of several nodes make no one reply, as of `INFO`.
        NoForm = 13,
        /// A text or a host is not UTF-8.
        NotText = 14,
        /// The text is no redirect. `redirect` returns `None` for it.
        NoRedirect = 15,
        /// The host of a slot's node has a line feed.
        LineFeedInHost = 16,
        /// The request goes to no node, as `DEL` without a key.
        NotRoutable = 17,
        /// The line of the number `told.at`, counted from 0, registers no name.
        BadName = 19,
        /// There is none, or none of this number. Only calls of a session return this and the next ones.
        NotThere = 20,
        /// A session does not take this command.
        NotTaken = 21,
        /// A session does not take a command that waits.
        Blocking = 22,
        /// A session keeps as many calls, or bytes of requests, as it may.
        TooMany = 23,
    }
}

numbers! {
    /// Where a request goes.
    Kind {
        /// It is not routed, as `SCAN`, or `DEL` with no key.
        Nowhere = 0,
        /// To any node.
        Any = 1,
        /// To any primary.
        AnyPrimary = 2,
        /// To one slot. `slot` and `addr` say which node.
        Slot = 3,
        /// To each node. `policy` says how the replies make one.
        All = 4,
        /// To each primary, with a policy, too.
        AllPrimaries = 5,
        /// To several slots: `split` splits it, and `combine` combines the replies.
        Slots = 6,
    }
}

numbers! {
    /// Which node of a slot.
    Addr {
        /// The primary.
        Primary = 0,
        /// A replica may serve it.
        ReplicaOptional = 1,
        /// A replica.
        Replica = 2,
    }
}

numbers! {
    /// How the replies of several nodes make one. The page for callers in C says what each makes.
    Policy {
        /// The request has no policy.
        None = 0,
        /// The first value, or else the last error.
        OneSucceeded = 1,
        /// The first value that is not nil.
        FirstNotEmpty = 2,
        /// The first value, if no node sent an error.
        AllSucceeded = 3,
        /// The logical and of arrays of 0 and 1.
        BitsAnd = 4,
        /// The logical or of arrays of 0 and 1.
        BitsOr = 5,
        /// The least integer.
        Least = 6,
        /// The sum of integers.
        Sum = 7,
        /// One array of all items.
        Arrays = 8,
        /// No one reply is made: answer by node, or refuse.
        Special = 9,
        /// Keys, each once, with the sums of their values.
        Maps = 10,
    }
}

#[cfg(test)]
mod tests {
    use super::*;

    #[test]
    fn each_number_comes_back() {
        let numbers = 0..30;
        assert!(numbers.clone().all(|it| u32::from(Code::from(it)) == it));
        assert!(numbers.clone().all(|it| u32::from(Kind::from(it)) == it));
        assert!(numbers.clone().all(|it| u32::from(Addr::from(it)) == it));
        assert!(numbers.clone().all(|it| u32::from(Policy::from(it)) == it));
    }
}
