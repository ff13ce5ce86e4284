pub mod aligned_box {
    use crate::syscall::error::Result;
    use core::marker::PhantomData;

    /// The room for registers: none is kept.
    #[derive(Debug)]
    pub struct AlignedBox<T: ?Sized, const ALIGN: usize>(PhantomData<T>);

    impl<const ALIGN: usize> AlignedBox<[u8], ALIGN> {
        pub fn try_zeroed_slice(_len: usize) -> Result<Self> {
            Ok(Self(PhantomData))
        }
    }
}
