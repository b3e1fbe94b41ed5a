//! `make lib`: built once for the same sources, how far the proofs are, and what is missing.

use std::fs::{self, File};
use std::os::unix::fs::symlink;
use std::path::{Path, PathBuf};
use std::process::{Command, Output};
use std::time::SystemTime;

use crate::commands::top;
use crate::repository::{folder, make, repository, write, NEEDS_MAKE};

/// What stands in for `rt`: it proved `rules` before, and proves the library where no file is named `wrong`. In a
/// crate's folder it says nothing of what was proved before.
const RT: &str = "\
#!/bin/sh
case $1 in
doc) echo \"$PWD/kit/guide\" ;;
version) cat kit/id ;;
lib)
    echo 'rt: chose --jobs 2 for cahermisk'
    if [ -e ../../wrong ]; then
        echo 'an error of the prover'
        echo 'crate cahermisk: modules loaded=1 checked=2'
        echo 'logic=not-proved'
        exit 1
    fi
    for crate in cahermisk cahermisk_c; do
        echo 'fn cahermisk::scan: proved'
        echo \"crate $crate: modules loaded=1 checked=2\"
        echo 'logic=proved functions=1'
    done
    ;;
esac
";

/// What stands in for tools/native-lib.
const NATIVE_LIB: &str = "\
#!/bin/sh
mkdir -p target/staticlib
cat crates/*/src/lib.rt >target/staticlib/libcahermisk.a
echo 'words of the compiler'
";

/// A repository of four crates, of which the library stands on two, with a toolchain.
fn with_crates(name: &str) -> PathBuf {
    let room = repository(name, "s390x");
    write(room.join("path/rt"), RT, 0o755);
    folder(room.join("kit/toolchain"));
    write(room.join("kit/id"), "kit 1\n", 0o644);
    fs::remove_file(room.join("tools")).expect("the link to the tools is there");
    let tools = folder(room.join("tools"));
    for entry in fs::read_dir(top().join("tools")).expect("the tools are there") {
        let entry = entry.expect("a tool");
        symlink(entry.path(), tools.join(entry.file_name())).expect("a link can be made");
    }
    fs::remove_file(tools.join("native-lib")).expect("it is among the tools");
    write(tools.join("native-lib"), NATIVE_LIB, 0o755);
    let table = "# a comment: with a colon\nrules:\n\ncahermisk: rules io\ncahermisk_c staticlib: cahermisk\nlines: rules\n";
    write(room.join("crates.txt"), table, 0o644);
    for name in ["rules", "cahermisk", "cahermisk_c", "lines"] {
        let crate_folder = folder(room.join("crates").join(name).join("src"));
        write(crate_folder.join("lib.rt"), name, 0o644);
    }
    room
}

/// What a command printed on both outputs, and whether it ended well.
fn ended(mut command: Command) -> (String, String, bool) {
    let Output {
        status,
        stdout,
        stderr,
    } = command.output().expect(NEEDS_MAKE);
    let text = |bytes: Vec<u8>| String::from_utf8(bytes).expect("plain text");
    (text(stdout), text(stderr), status.success())
}

fn makes_lib(room: &Path, built: bool, after: &str) {
    let (stdout, stderr, well) = ended(make(room, &["lib"]));
    assert!(well, "after {after}: {stdout}{stderr}");
    let (printed, shown) = if built { BUILT } else { NOTHING };
    assert_eq!((&*stdout, &*stderr), (printed, shown), "after {after}");
}

/// What `make lib` prints, and what it shows of the proofs.
const BUILT: (&str, &str) = (
    "Building the library\nThe library is in target/staticlib\n",
    "0 of 3 crates proved\n1 of 3 crates proved: cahermisk\n2 of 3 crates proved: cahermisk_c\n\
     3 of 3 crates proved, 1 of them before\n",
);
const NOTHING: (&str, &str) = (
    "Nothing to do: the library in target/staticlib is of these sources\n",
    "",
);

#[test]
fn the_library_is_built_anew_where_a_source_has_changed() {
    let room = with_crates("make_lib");
    let source = room.join("crates/rules/src/lib.rt");
    let other = room.join("crates/rules/src/other.rt");
    makes_lib(&room, true, "nothing was there");
    makes_lib(&room, false, "it was built");
    write(source.clone(), "changed", 0o644);
    let file = File::options().append(true).open(&source);
    let file = file.expect("the source is there");
    file.set_modified(SystemTime::UNIX_EPOCH)
        .expect("its time can be set");
    makes_lib(&room, true, "a source changed, with an old time");
    write(other.clone(), "", 0o644);
    makes_lib(&room, true, "a source came");
    fs::remove_file(other).expect("the source is there");
    makes_lib(&room, true, "a source went");
    write(room.join("kit/id"), "kit 2\n", 0o644);
    makes_lib(&room, true, "another toolchain came");
    write(room.join("target/staticlib/libcahermisk.a"), "", 0o644);
    makes_lib(&room, true, "the archive changed");
    fs::remove_file(room.join("target/staticlib/libcahermisk.a")).expect("it is there");
    makes_lib(&room, true, "the archive went");
    write(room.join("crates/lines/src/lib.rt"), "changed", 0o644);
    makes_lib(
        &room,
        false,
        "a crate changed that the library does not stand on",
    );
}

#[test]
fn what_is_not_proved_is_not_built_and_shows_what_rt_said() {
    let room = with_crates("make_wrong_lib");
    makes_lib(&room, true, "nothing was there");
    write(room.join("crates/rules/src/lib.rt"), "wrong", 0o644);
    write(room.join("wrong"), "", 0o644);
    for _ in 0..2 {
        let (stdout, stderr, well) = ended(make(&room, &["lib"]));
        assert!(!well);
        assert!(stdout.contains("\nan error of the prover\n"), "{stdout}");
        assert!(!stdout.contains("Building"), "{stdout}");
        let shown = "cahermisk is not proved\n0 of 3 crates proved\n";
        assert!(stderr.contains(shown), "{stderr}");
    }
}

/// `make` ends with this sentence before anything is done.
fn stops(command: Command, sentence: &str) {
    let (stdout, stderr, well) = ended(command);
    assert!(!well, "{stdout}");
    assert_eq!(stdout, "");
    assert_eq!(stderr.lines().next(), Some(sentence));
}

/// A folder with `make` and no other command.
fn make_alone(room: &Path) -> PathBuf {
    let path = std::env::var("PATH").expect("PATH is set");
    let mut places = path.split(':').map(|part| Path::new(part).join("make"));
    let found = places.find(|place| place.exists()).expect(NEEDS_MAKE);
    let alone = folder(room.join("alone"));
    symlink(found, alone.join("make")).expect("a link can be made");
    alone
}

#[test]
fn a_toolchain_that_is_missing_is_told() {
    let room = with_crates("make_without_rt");
    let put = ": put the Rattle toolchain's rt on PATH";
    let alone = make_alone(&room);
    for goal in ["run", "lib", "test"] {
        let mut without_rt = make(&room, &[goal]);
        without_rt.env("PATH", &alone);
        let sentence = format!("rt is missing, the command that proves the crates{put}");
        stops(without_rt, &sentence);
    }
    fs::remove_dir(room.join("kit/toolchain")).expect("it is there");
    let kit = fs::canonicalize(room.join("kit")).expect("it is there");
    let kit = kit.display();
    let sentence = format!("rt has nothing for this machine, s390x, in {kit}{put}");
    stops(make(&room, &["lib"]), &sentence);
    let rt = "#!/bin/sh\necho rt: no kit\nexit 2\n";
    write(room.join("path/rt"), rt, 0o755);
    let sentence = format!("rt does not work (rt: no kit){put}");
    stops(make(&room, &["lib"]), &sentence);
}

#[test]
fn a_folder_that_cannot_be_written_is_told() {
    let room = with_crates("make_unwritable");
    write(room.join("target"), "a file in the way", 0o644);
    let target = fs::canonicalize(&room).expect("it is there").join("target");
    let sentence = format!(
        "{} cannot be written, and make builds in the folder target/",
        target.display()
    );
    for goal in ["run", "lib", "test"] {
        stops(make(&room, &[goal]), &sentence);
    }
}
