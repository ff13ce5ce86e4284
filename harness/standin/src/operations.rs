//! Operations by exports of their own.

use image::{Answer, Call};

macro_rules! operation {
    ($name:ident, $operation:expr $(, $context:ident)?) => {
        /// # Safety
        /// `image` points to `len` words.
        #[unsafe(no_mangle)]
        pub unsafe extern "C" fn $name(
            image: *mut u64,
            len: usize,
            cpu: u64,
            time: u64,
            $($context: u64,)?
        ) -> Answer {
            let words = unsafe { std::slice::from_raw_parts_mut(image, len) };
            #[allow(clippy::needless_update)]
            let call = Call {
                operation: $operation,
                cpu,
                time,
                $($context,)?
                ..Call::default()
            };
            crate::called(words, &call)
        }
    };
}

operation!(ronthuyal_tick, 1);
operation!(ronthuyal_switch, 2);
operation!(ronthuyal_direct_switch_to, 3, context);
operation!(ronthuyal_unblock_context, 4, context);
operation!(ronthuyal_drain_ipi_context_wakeups, 5);
operation!(ronthuyal_block, 6, context);
operation!(ronthuyal_hard_block, 7, context);
