//! Folders like the top of the repository, in which `make` is run, on a machine of a kind.

use std::fs;
use std::os::unix::fs::{symlink, PermissionsExt};
use std::path::{Path, PathBuf};
use std::process::Command;

use crate::commands::{room, top};

pub const NEEDS_MAKE: &str = "this test needs make on PATH";

pub fn write(path: PathBuf, text: &str, mode: u32) {
    fs::write(&path, text).expect("a file can be written");
    fs::set_permissions(&path, fs::Permissions::from_mode(mode)).expect("its mode can be set");
}

pub fn folder(path: PathBuf) -> PathBuf {
    fs::create_dir_all(&path).expect("a folder can be made");
    path
}

/// A folder with the repository's own Makefile and tools. `rt` is there, and does not work.
pub fn repository(name: &str, machine: &str) -> PathBuf {
    let room = room(name);
    for part in ["Makefile", "tools", "include", "docs", "rust"] {
        let link = symlink(top().join(part), room.join(part));
        link.unwrap_or_else(|error| panic!("{part}: {error}"));
    }
    let path = folder(room.join("path"));
    let uname = format!("#!/bin/sh\necho {machine}\n");
    write(path.join("uname"), &uname, 0o755);
    write(path.join("rt"), "#!/bin/sh\nexit 1\n", 0o755);
    room
}

/// `make` in such a folder, where the commands of its folder `path` come before all others.
pub fn make(repository: &Path, words: &[&str]) -> Command {
    let path = std::env::var("PATH").expect("PATH is set");
    let path = format!("{}:{path}", repository.join("path").display());
    let mut command = Command::new("make");
    command.args(["-s", "-C"]).arg(repository).args(words);
    command.env("PATH", path);
    for name in ["MAKEFLAGS", "DESTDIR", "CAHERMISK_LIB_DIR"] {
        command.env_remove(name);
    }
    command
}

/// The folder of the library that the tests link.
pub fn library() -> &'static Path {
    let folder = Path::new(env!("CAHERMISK_ARCHIVE")).parent();
    folder.expect("the archive has a folder")
}

/// `make install` or `uninstall` of the library in a folder.
pub fn make_of(repository: &Path, library: &Path, words: &[&str]) -> Command {
    let mut command = make(repository, words);
    command.env("CAHERMISK_LIB_DIR", library);
    command
}

/// What stands in for the program: it asks for its first word, and does what the second one says.
const PROGRAM: &str = "\
#!/bin/sh
[ \"$1\" = --status-fd=3 ] || exit 9
shift
case $1 in
told) echo answer; echo sentence >&2; printf 11 >&3 ;;
ended) kill -PIPE $$ ;;
read) cat ;;
*) printf '<%s>' \"$@\" ;;
esac
exit 0
";

pub fn with_program(repository: &Path) {
    let bin = folder(repository.join("target/bin"));
    write(bin.join("scan"), PROGRAM, 0o755);
}
