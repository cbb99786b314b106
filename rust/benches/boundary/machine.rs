//! What the measurements were taken on. Nothing here names the machine itself.

use std::ffi::{c_char, CStr};
use std::fs;
use std::process::Command;

#[link(name = "z")]
extern "C" {
    fn zlibVersion() -> *const c_char;
}

/// The parts of the machine that the times depend on, by name.
pub fn description() -> Vec<(&'static str, String)> {
    let processors = read("/proc/cpuinfo");
    vec![
        ("CPU", processor(&processors)),
        ("cores", processors.lines().filter(|line| line.starts_with("processor")).count().to_string()),
        ("caches", caches()),
        ("memory", memory()),
        ("kernel", read("/proc/sys/kernel/osrelease").trim().to_owned()),
        ("C library", output("getconf", "GNU_LIBC_VERSION")),
        ("compiler", output("rustc", "--version")),
        ("zlib", zlib_version()),
    ]
}

// The number tells the make where the name does not.
fn processor(processors: &str) -> String {
    let [name, family, model] = ["model name", "cpu family", "model\t"].map(|name| field(processors, name));
    format!("{name}, family {family}, model {model}")
}

fn caches() -> String {
    let cache = |index| {
        let value = |name| read(&format!("/sys/devices/system/cpu/cpu0/cache/index{index}/{name}"));
        let [level, kind, size] = ["level", "type", "size"].map(value);
        let kind = kind.trim().to_lowercase();
        (!size.is_empty()).then(|| format!("L{} {kind} {}", level.trim(), size.trim()))
    };
    (0..).map_while(cache).collect::<Vec<_>>().join(", ")
}

fn memory() -> String {
    let total = field(&read("/proc/meminfo"), "MemTotal");
    let kib = total.trim_end_matches(" kB").parse::<f64>().unwrap_or(f64::NAN);
    format!("{:.1} GiB", kib / (1 << 20) as f64)
}

fn zlib_version() -> String {
    // SAFETY: zlib hands out a static string that ends with a zero byte.
    unsafe { CStr::from_ptr(zlibVersion()) }.to_string_lossy().into_owned()
}

// A file that is not there reads as empty: a machine that does not tell is described by less.
fn read(path: &str) -> String {
    fs::read_to_string(path).unwrap_or_default()
}

fn field(text: &str, name: &str) -> String {
    let line = text.lines().find(|line| line.starts_with(name));
    line.and_then(|line| line.split_once(':')).map(|(_, value)| value.trim().to_owned()).unwrap_or_default()
}

fn output(program: &str, argument: &str) -> String {
    match Command::new(program).arg(argument).output() {
        Ok(output) => String::from_utf8_lossy(&output.stdout).trim().to_owned(),
        Err(_) => String::new(),
    }
}
