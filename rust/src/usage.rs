//! What a block is used for.

use crate::flags::flags;

flags! {
    /// What a block is used for. It decides which memory types may serve a request, and in which order they are tried.
    ///
    /// The empty set means [`FAST_DEVICE_ACCESS`](UsageFlags::FAST_DEVICE_ACCESS).
    pub struct UsageFlags {
        /// The device uses it often: device-local memory is preferred.
        const FAST_DEVICE_ACCESS = 0x01;

        /// The host reads or writes it: the memory is host-visible. Without this flag, and the two that imply it,
        /// memory that is not host-visible is preferred.
        const HOST_ACCESS = 0x02;

        /// The host reads it: host-cached memory is preferred. Implies [`HOST_ACCESS`](UsageFlags::HOST_ACCESS).
        const DOWNLOAD = 0x04;

        /// The host writes it, and reads it only with [`DOWNLOAD`](UsageFlags::DOWNLOAD): memory that is not
        /// host-cached is preferred. Implies [`HOST_ACCESS`](UsageFlags::HOST_ACCESS).
        const UPLOAD = 0x08;

        /// It is returned soon, such as a buffer for one batch of copies: it is taken from a free list. Held for long,
        /// it keeps its memory object from being freed. Alone it prefers memory that is not device-local: add
        /// [`FAST_DEVICE_ACCESS`](UsageFlags::FAST_DEVICE_ACCESS) where the device works on it.
        const TRANSIENT = 0x10;

        /// The device address of what is bound to it can be queried. Needs
        /// [`DeviceProperties::buffer_device_address`](crate::DeviceProperties::buffer_device_address).
        const DEVICE_ADDRESS = 0x20;
    }
}

#[cfg(test)]
mod tests {
    use super::UsageFlags;

    const BOTH: UsageFlags = UsageFlags::DOWNLOAD.union(UsageFlags::UPLOAD);

    #[test]
    fn sets_and_bits() {
        assert_eq!(UsageFlags::all().bits(), 0x3f);
        assert_eq!(UsageFlags::from_bits(0x40), None);
        assert_eq!(UsageFlags::from_bits_truncate(0x4c), BOTH);
        assert_eq!(UsageFlags::from_bits_retain(0x40).bits(), 0x40);
        assert_eq!(UsageFlags::from_name("UPLOAD"), Some(UsageFlags::UPLOAD));
        assert_eq!(UsageFlags::from_name("upload"), None);
        assert!(UsageFlags::empty().is_empty() && UsageFlags::all().is_all() && !BOTH.is_all());
        assert!(BOTH.contains(UsageFlags::UPLOAD) && !UsageFlags::UPLOAD.contains(BOTH));
        assert!(BOTH.intersects(UsageFlags::UPLOAD) && !BOTH.intersects(UsageFlags::TRANSIENT));
    }

    #[test]
    fn operators_and_changes() {
        let upload = UsageFlags::UPLOAD;
        assert_eq!(UsageFlags::DOWNLOAD | upload, BOTH);
        assert_eq!((BOTH & upload, BOTH ^ upload, BOTH - upload), (upload, UsageFlags::DOWNLOAD, UsageFlags::DOWNLOAD));
        assert_eq!(!UsageFlags::all(), UsageFlags::empty());
        let mut flags = UsageFlags::empty();
        flags |= BOTH;
        flags -= upload;
        flags ^= BOTH;
        flags &= upload;
        assert_eq!(flags, upload);
        flags.insert(UsageFlags::DOWNLOAD);
        flags.remove(upload);
        flags.toggle(BOTH);
        flags.set(UsageFlags::TRANSIENT, true);
        flags.set(upload, false);
        assert_eq!(flags, UsageFlags::TRANSIENT);
    }

    #[test]
    fn one_by_one_and_written() {
        let unnamed = UsageFlags::from_bits_retain(0x40);
        let all: Vec<_> = (BOTH | unnamed).iter().collect();
        assert_eq!(all, [UsageFlags::DOWNLOAD, UsageFlags::UPLOAD, unnamed]);
        let mut bits = Vec::new();
        for flag in UsageFlags::all() {
            bits.push(flag.bits());
        }
        assert_eq!(bits, [0x01, 0x02, 0x04, 0x08, 0x10, 0x20]);
        assert_eq!(UsageFlags::empty().into_iter().next(), None);
        assert_eq!(unnamed.into_iter().collect::<Vec<_>>(), [unnamed]);
        assert_eq!(all.into_iter().collect::<UsageFlags>(), BOTH | unnamed);
        assert_eq!(BOTH.iter_names().map(|named| named.0).collect::<Vec<_>>(), ["DOWNLOAD", "UPLOAD"]);
        assert_eq!(
            format!("{BOTH:?} {:?}", BOTH | unnamed),
            "UsageFlags(DOWNLOAD | UPLOAD) UsageFlags(DOWNLOAD | UPLOAD | 0x40)"
        );
        assert_eq!(format!("{:?} {BOTH:#x} {BOTH:b}", UsageFlags::empty()), "UsageFlags(0x0) 0xc 1100");
    }
}
