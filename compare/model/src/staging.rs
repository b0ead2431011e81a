//! Staging: bytes on their way to the image.

use crate::writer_state::Writer;

/// The two lent buffers of a writer.
pub(crate) struct Buffers<'a> {
    pub image: &'a mut [u8],
    pub staging: &'a mut [u8],
}

/// Staged bytes go to the image.
pub(crate) fn flush(writer: &mut Writer, buffers: &mut Buffers<'_>) {
    let count = writer.staged as usize;
    let at = writer.position as usize;
    buffers.image[at..at + count].copy_from_slice(&buffers.staging[..count]);
    writer.staged = 0;
    move_on(writer, count);
}

/// One write of `bytes`.
pub(crate) fn write(writer: &mut Writer, buffers: &mut Buffers<'_>, bytes: &[u8]) {
    let mut rest = bytes;
    while !rest.is_empty() {
        if writer.staged == writer.staging_size {
            flush(writer, buffers);
        }
        if rest.len() as u64 > writer.staging_size {
            flush(writer, buffers);
            let at = writer.position as usize;
            buffers.image[at..at + rest.len()].copy_from_slice(rest);
            move_on(writer, rest.len());
            return;
        }
        let at = writer.staged as usize;
        let count = rest.len().min(buffers.staging.len() - at);
        buffers.staging[at..at + count].copy_from_slice(&rest[..count]);
        writer.staged += count as u64;
        rest = &rest[count..];
    }
}

/// The writes of a segment's header.
pub(crate) fn write_header(writer: &mut Writer, buffers: &mut Buffers<'_>, info: &[u8]) {
    write(writer, buffers, b"okw\0");
    write(writer, buffers, &[info.len() as u8]);
    write(writer, buffers, info);
}

/// The file position moves past bytes just stored; the file is at least that long.
fn move_on(writer: &mut Writer, count: usize) {
    writer.position += count as u64;
    writer.file_length = writer.file_length.max(writer.position);
}
