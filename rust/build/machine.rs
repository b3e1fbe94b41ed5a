//! Which machine an archive is for.

use std::path::Path;
use std::{env, fs, str};

/// Cargo's word for a machine, and ELF's number.
const MACHINES: [(&str, u16); 2] = [("x86_64", 62), ("aarch64", 183)];

/// Refuses an archive for another machine. One that does not tell its machine, and a machine that is not
/// among those above, are left to the linker.
pub fn judge(archive: &Path) -> Result<(), String> {
    let bytes = fs::read(archive).map_err(|error| format!("{}: {error}", archive.display()))?;
    let target = env::var("CARGO_CFG_TARGET_ARCH").unwrap_or_default();
    let wanted = MACHINES.iter().find(|(name, _)| *name == target);
    match (machine_of(&bytes), wanted) {
        (Some(machine), Some(&(_, number))) if machine != number => Err(format!(
            "{} is for {}, and this build is for {target}: \
             `make lib` writes it for the machine that it runs on.",
            archive.display(),
            name_of(machine)
        )),
        _ => Ok(()),
    }
}

fn name_of(machine: u16) -> String {
    let known = MACHINES.iter().find(|(_, number)| *number == machine);
    known.map_or_else(
        || format!("another machine (number {machine} of ELF)"),
        |(name, _)| (*name).to_owned(),
    )
}

/// The machine of an archive's first object. A member has a head of 60 bytes, with its size in digits,
/// and begins at an even place.
fn machine_of(archive: &[u8]) -> Option<u16> {
    let mut rest = archive.strip_prefix(b"!<arch>\n")?;
    loop {
        let (head, body) = rest.split_at_checked(60)?;
        let size: usize = str::from_utf8(&head[48..58])
            .ok()?
            .trim_end()
            .parse()
            .ok()?;
        if let Some(machine) = elf_machine(body.get(..size)?) {
            return Some(machine);
        }
        rest = body.get(size.next_multiple_of(2)..)?;
    }
}

/// The machine of an ELF object, low byte first; the members that list symbols and names are none.
fn elf_machine(member: &[u8]) -> Option<u16> {
    let object = member.strip_prefix(b"\x7FELF")?;
    let machine = object.get(14..16)?.try_into().ok()?;
    Some(u16::from_le_bytes(machine))
}
