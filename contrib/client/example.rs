//! Registers a node until its input ends, looks one up, or lists all of them, at the port mapper of this host. `epmd` is a safe wrapper
//! of the library's calls, to be copied from here.
//!
//!     rustc example.rs -l epmd_client
//!     ./example register PORT-OF-EPMD NAME PORT
//!     ./example lookup PORT-OF-EPMD NAME
//!     ./example names PORT-OF-EPMD
use std::io::Read;
use std::net::{Ipv4Addr, TcpStream};
use std::time::Duration;

mod epmd {
    use std::net::TcpStream;
    use std::os::fd::AsRawFd;

    const OK: i32 = 0;
    const REFUSED: i32 = 8;
    const NOT_REGISTERED: i32 = 9;
    const LIST_END: i32 = 11;
    const BUFFER_TOO_SMALL: i32 = 18;
    const BODY_MOST: usize = 8192;

    /// The numbers that a node registers.
    #[repr(C)]
    #[derive(Clone, Copy, Default)]
    pub struct Node {
        pub port: u16,
        pub highest: u16,
        pub lowest: u16,
        pub kind: u8,
        pub protocol: u8,
    }

    #[repr(C)]
    #[derive(Default)]
    struct Text {
        at: usize,
        size: usize,
    }

    #[repr(C)]
    #[derive(Default)]
    struct Places {
        name: Text,
        extra: Text,
        node: Node,
    }

    #[repr(C)]
    #[derive(Default)]
    struct Alive {
        creation: u32,
        code: u8,
    }

    #[repr(C)]
    #[derive(Default)]
    struct Line {
        name: Text,
        port: u16,
    }

    unsafe extern "C" {
        fn epmd_register(
            socket: i32, node: &Node, name: *const u8, name_size: usize, extra: *const u8, extra_size: usize, alive: &mut Alive,
        ) -> i32;
        fn epmd_lookup(socket: i32, name: *const u8, name_size: usize, texts: *mut u8, texts_size: usize, found: &mut Places) -> i32;
        fn epmd_names(socket: i32, out: *mut u8, out_size: usize, size: &mut usize) -> i32;
        fn epmd_read_list(bytes: *const u8, bytes_size: usize, port: &mut u32, at: &mut usize) -> i32;
        fn epmd_read_names_line(bytes: *const u8, bytes_size: usize, at: &mut usize, line: &mut Line) -> i32;
    }

    /// Why a call failed.
    #[derive(Debug, PartialEq)]
    pub enum Fault {
        /// The port mapper refused the registration, with this result.
        Refused(u8),
        /// A status of `epmd_client.h`.
        Status(i32),
    }

    /// A registered name. It is registered until this value is dropped.
    pub struct Registration {
        pub creation: u32,
        _connection: TcpStream,
    }

    /// What is registered under a name.
    pub struct Found {
        pub node: Node,
        pub name: Vec<u8>,
        pub extra: Vec<u8>,
    }

    fn in_bytes(bytes: &[u8], text: &Text) -> Vec<u8> {
        bytes[text.at..text.at + text.size].to_vec()
    }

    /// Registers a node over a connection.
    pub fn register(connection: TcpStream, node: &Node, name: &[u8], extra: &[u8]) -> Result<Registration, Fault> {
        let mut alive = Alive::default();
        let socket = connection.as_raw_fd();
        match unsafe { epmd_register(socket, node, name.as_ptr(), name.len(), extra.as_ptr(), extra.len(), &mut alive) } {
            OK => Ok(Registration { creation: alive.creation, _connection: connection }),
            REFUSED => Err(Fault::Refused(alive.code)),
            status => Err(Fault::Status(status)),
        }
    }

    /// Asks what is registered under a name.
    pub fn lookup(connection: &TcpStream, name: &[u8]) -> Result<Option<Found>, Fault> {
        let mut texts = [0; BODY_MOST];
        let mut found = Places::default();
        let socket = connection.as_raw_fd();
        match unsafe { epmd_lookup(socket, name.as_ptr(), name.len(), texts.as_mut_ptr(), texts.len(), &mut found) } {
            OK => Ok(Some(Found { node: found.node, name: in_bytes(&texts, &found.name), extra: in_bytes(&texts, &found.extra) })),
            NOT_REGISTERED => Ok(None),
            status => Err(Fault::Status(status)),
        }
    }

    /// Asks for the registered names and their ports. `connect` makes a connection for each try: a list that is larger than there was
    /// room for is asked for again.
    pub fn names(mut connect: impl FnMut() -> TcpStream) -> Result<Vec<(Vec<u8>, u16)>, Fault> {
        let mut list = vec![0; 4096];
        loop {
            let mut size = 0;
            match unsafe { epmd_names(connect().as_raw_fd(), list.as_mut_ptr(), list.len(), &mut size) } {
                OK => return lines(&list[..size]),
                BUFFER_TOO_SMALL => list.resize(2 * size, 0),
                status => return Err(Fault::Status(status)),
            }
        }
    }

    fn lines(list: &[u8]) -> Result<Vec<(Vec<u8>, u16)>, Fault> {
        let (mut port, mut at, mut lines) = (0, 0, Vec::new());
        let mut status = unsafe { epmd_read_list(list.as_ptr(), list.len(), &mut port, &mut at) };
        while status == OK {
            let mut line = Line::default();
            status = unsafe { epmd_read_names_line(list.as_ptr(), list.len(), &mut at, &mut line) };
            if status == OK {
                lines.push((in_bytes(list, &line.name), line.port));
            }
        }
        if status == LIST_END { Ok(lines) } else { Err(Fault::Status(status)) }
    }
}

/// One read or write waits for so long, and a call for at most 1,000 of them.
const TURN: Duration = Duration::from_millis(10);

fn connected(port: &str) -> TcpStream {
    let stream = TcpStream::connect((Ipv4Addr::LOCALHOST, port.parse().expect("a port"))).expect("no port mapper");
    stream.set_read_timeout(Some(TURN)).expect("a time-out");
    stream.set_write_timeout(Some(TURN)).expect("a time-out");
    stream
}

/// Registers a node until the input ends.
fn do_register(epmd_port: &str, name: &str, port: &str) -> Result<(), epmd::Fault> {
    let node = epmd::Node { port: port.parse().expect("a port"), highest: 6, lowest: 5, kind: 72, protocol: 0 };
    let registration = match epmd::register(connected(epmd_port), &node, name.as_bytes(), b"") {
        Err(epmd::Fault::Refused(code)) => {
            println!("refused {code}");
            std::process::exit(1);
        }
        other => other?,
    };
    println!("creation {}", registration.creation);
    std::io::stdin().read_to_end(&mut Vec::new()).expect("the input");
    Ok(())
}

fn main() -> Result<(), epmd::Fault> {
    let words: Vec<String> = std::env::args().skip(1).collect();
    let words: Vec<&str> = words.iter().map(String::as_str).collect();
    match words[..] {
        ["register", epmd_port, name, port] => do_register(epmd_port, name, port)?,
        ["lookup", epmd_port, name] => match epmd::lookup(&connected(epmd_port), name.as_bytes())? {
            None => println!("not registered"),
            Some(found) => println!(
                "{} at port {}, kind {}, versions {} to {}, {} extra bytes",
                String::from_utf8_lossy(&found.name), found.node.port, found.node.kind, found.node.lowest, found.node.highest, found.extra.len()
            ),
        },
        ["names", epmd_port] => {
            for (name, port) in epmd::names(|| connected(epmd_port))? {
                println!("{} at port {port}", String::from_utf8_lossy(&name));
            }
        }
        _ => {
            eprintln!("usage: example register|lookup|names PORT-OF-EPMD [NAME [PORT]]");
            std::process::exit(2);
        }
    }
    Ok(())
}
