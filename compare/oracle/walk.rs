//! The diagnostics: a store, filled and walked.
use crate::caught::{original, Panicked};
use crate::diagnostics::{
    ChannelDataType, ChannelDiagnostics, ChannelError, ExtDiagBlock, ExtDiagBlockIter, ExtendedDiagnostics,
};
use crate::refusals;
use crate::text;

pub fn diag(bytes: &str) -> Option<String> {
    let data = text::bytes(bytes)?;
    let mut store = data.clone();
    let mut diagnostics = ExtendedDiagnostics::of(&mut store, 0);
    diagnostics.fill(&data);
    Some(walked(&diagnostics).join(" | "))
}

pub fn step(store: &str, length: &str, cursor: &str) -> Option<String> {
    let mut store = text::bytes(store)?;
    let (length, cursor) = (text::number(length)?, text::number(cursor)?);
    let diagnostics = ExtendedDiagnostics::of(&mut store, length);
    let mut walk = diagnostics.walk_from(cursor);
    Some(one(&mut walk).unwrap_or_else(|last| last))
}

/// What is collected, and what is left when the store is taken back. The original's `None` is no bytes.
pub fn raw(store: &str, length: &str) -> Option<String> {
    let mut store = text::bytes(store)?;
    let mut diagnostics = ExtendedDiagnostics::of(&mut store, text::number(length)?);
    let available = u8::from(diagnostics.is_available());
    let Ok(raw) = original(|| text::hex(diagnostics.raw_diag_buffer().unwrap_or_default())) else {
        return Some("panic".to_string());
    };
    let taken = diagnostics.take_buffer();
    Some(format!("{available} {raw} | {} {}", diagnostics.length(), text::hex(&taken)))
}

pub fn store(room: &str, data: &[&str]) -> Option<String> {
    let mut store = vec![0xAA; text::room(room)?];
    let data: Vec<Vec<u8>> = data.iter().map(|data| text::bytes(data)).collect::<Option<_>>()?;
    let mut diagnostics = ExtendedDiagnostics::from_buffer(managed::ManagedSlice::Borrowed(&mut store));
    let mut parts = Vec::new();
    for data in &data {
        parts.push(match original(|| diagnostics.fill(data)) {
            Err(Panicked) => "panic".to_string(),
            Ok(filled) => format!("{filled} {} {}", diagnostics.length(), text::hex(diagnostics.store())),
        });
    }
    parts.extend(walked(&diagnostics));
    Some(parts.join(" | "))
}

fn walked(diagnostics: &ExtendedDiagnostics) -> Vec<String> {
    let mut walk = diagnostics.iter_diag_blocks();
    let mut parts = Vec::new();
    loop {
        match one(&mut walk) {
            Ok(block) => parts.push(block),
            Err(last) => {
                parts.push(last);
                return parts;
            }
        }
    }
}

/// One step: a block, or what stands last, and the cursor after it.
fn one(walk: &mut ExtDiagBlockIter) -> Result<String, String> {
    match original(|| walk.next()) {
        Err(Panicked) => Err("panic".to_string()),
        Ok(Some(block)) => Ok(format!("{} @{}", shown(&block), walk.cursor())),
        Ok(None) => Err(match refusals::logged() {
            Some(number) => format!("refused-{number} @{}", walk.cursor()),
            None => format!("end @{}", walk.cursor()),
        }),
    }
}

fn shown(block: &ExtDiagBlock) -> String {
    match block {
        ExtDiagBlock::Identifier(bits) => format!("ident {} {}", text::hex(bits.bytes()), text::list(bits.iter_ones())),
        ExtDiagBlock::Device(body) => format!("device {}", text::hex(body)),
        ExtDiagBlock::Channel(channel) => shown_channel(channel),
    }
}

fn shown_channel(channel: &ChannelDiagnostics) -> String {
    let (input, output) = (u8::from(channel.input), u8::from(channel.output));
    let data_type = match channel.dtype {
        ChannelDataType::Invalid => "Invalid".to_string(),
        named => (named as u8).to_string(),
    };
    let error = shown_error(channel.error);
    format!("channel {} {} {input} {output} {data_type} {error}", channel.module, channel.channel)
}

fn shown_error(error: ChannelError) -> String {
    match error {
        ChannelError::Vendor(number) => format!("vendor:{number}"),
        ChannelError::Reserved(number) => format!("reserved:{number}"),
        named => format!("named:{}", named.number()),
    }
}
