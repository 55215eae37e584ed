//! Numbers, floats and samples as bytes, low byte first, one after the other, as the port's library `wire`
//! reads and lays them.

macro_rules! laid {
    ($read:ident, $put:ident, $of:ty) => {
        pub fn $read(from: &[u8], to: &mut [$of]) {
            for (bytes, value) in from.chunks_exact(size_of::<$of>()).zip(to) {
                *value = <$of>::from_le_bytes(bytes.try_into().expect("its own size"));
            }
        }

        pub fn $put(to: &mut [u8], from: &[$of]) {
            for (bytes, value) in to.chunks_exact_mut(size_of::<$of>()).zip(from) {
                bytes.copy_from_slice(&value.to_le_bytes());
            }
        }
    };
}

laid!(numbers, put_numbers, u64);
laid!(floats, put_floats, f32);
laid!(samples, put_samples, i16);
