//! The picture of docs/replay-format.md (kind 17).

use std::io::{self, Write};

use crate::ssd1677::PanelImage;

/// From black to white.
const SHADES: &[u8; 10] = b"@%#*+=-:. ";

pub(super) fn write(image: &PanelImage, out: &mut impl Write) -> io::Result<()> {
    writeln!(out, "picture {} {}", image.width, image.height)?;
    for row in image.pixels.chunks(usize::from(image.width)) {
        let shade = |&grey: &u8| SHADES[usize::from(grey) * 10 / 256];
        out.write_all(&row.iter().map(shade).collect::<Vec<u8>>())?;
        writeln!(out, "|")?;
    }
    Ok(())
}
