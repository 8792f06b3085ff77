//! Which run is under way, for the case that the library reads or writes where it may not, or that this program stops.
use std::process;
use std::sync::Mutex;

static CURRENT: Mutex<String> = Mutex::new(String::new());
const SEGMENTATION_FAULT: i32 = 11;

extern "C" {
    fn signal(number: i32, handler: extern "C" fn(i32)) -> usize;
}

pub fn set(command: String) {
    *CURRENT.lock().expect("one thread") = command;
}

fn tell(what: &str) {
    match CURRENT.try_lock() {
        Ok(command) => eprintln!("{what}; to reproduce: {command}"),
        Err(_) => eprintln!("{what}"),
    }
}

extern "C" fn stopped(_: i32) {
    tell("memory outside the lent buffers was touched");
    process::exit(1);
}

/// Tells the run where one stops the program.
pub fn watch() {
    let before = std::panic::take_hook();
    std::panic::set_hook(Box::new(move |panic| {
        before(panic);
        tell("the second program stopped");
    }));
    unsafe { signal(SEGMENTATION_FAULT, stopped) };
}
