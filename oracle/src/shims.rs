//! What gc.rs takes from its crate or from a newer gimli. The list sections' rewriting, which `gc_debug_info` does not
//! reach, is the only user of `ListsHeader`.

use gimli::{Encoding, Format, Reader};

/// Sections come in relocated, so the relocating reader is the reader.
pub(crate) type Relocate<R> = R;

/// Only a label in traces.
#[derive(Clone, Copy, Debug)]
pub(crate) struct DwoId(#[allow(dead_code)] pub(crate) u64);

#[allow(dead_code)]
pub(crate) struct ListsHeader {
    pub(crate) encoding: Encoding,
    pub(crate) offset_entry_count: u32,
}

#[allow(dead_code)]
impl ListsHeader {
    pub(crate) fn parse<R: Reader<Offset = usize>>(input: &mut R) -> gimli::Result<Self> {
        let (length, format) = input.read_initial_length()?;
        let mut rest = input.split(length)?;
        let version = rest.read_u16()?;
        if version != 5 {
            return Err(gimli::Error::UnknownVersion(version.into()));
        }
        let address_size = rest.read_u8()?;
        if rest.read_u8()? != 0 {
            return Err(gimli::Error::UnsupportedSegmentSize);
        }
        let offset_entry_count = rest.read_u32()?;
        Ok(ListsHeader { encoding: Encoding { format, version, address_size }, offset_entry_count })
    }

    pub(crate) fn size(&self) -> u8 {
        match self.encoding.format {
            Format::Dwarf32 => 12,
            Format::Dwarf64 => 20,
        }
    }
}
