//! Prints random messages, one a line: the type's name, the bytes by `bincode` in hex, and the text by
//! `serde_json`. The types are declared here anew, for serde's derives.
use serde::Serialize;
use std::net::{IpAddr, Ipv4Addr, Ipv6Addr, SocketAddr};

#[derive(Serialize)]
struct Toolchain {
    archive_id: String,
}

#[derive(Serialize)]
enum JobState {
    Pending,
    Ready,
    Started,
    Complete,
}

#[derive(Serialize)]
struct AssignJobResult {
    state: JobState,
    need_toolchain: bool,
}

#[derive(Serialize)]
enum UpdateJobStateResult {
    Success,
    Fail { msg: String },
}

#[derive(Serialize)]
struct ServerNonce(u64);

#[derive(Serialize)]
struct HeartbeatServerHttpRequest {
    jwt_key: Vec<u8>,
    num_cpus: usize,
    server_nonce: ServerNonce,
}

#[derive(Serialize)]
struct HeartbeatServerResult {
    is_new: bool,
}

#[derive(Serialize)]
struct JobId(u64);

#[derive(Serialize)]
struct ServerId(SocketAddr);

#[derive(Serialize)]
struct JobAlloc {
    auth: String,
    job_id: JobId,
    server_id: ServerId,
}

#[derive(Serialize)]
enum AllocJobResult {
    Success {
        job_alloc: JobAlloc,
        need_toolchain: bool,
    },
    Fail {
        msg: String,
    },
}

#[derive(Serialize)]
struct CompileCommand {
    executable: String,
    arguments: Vec<String>,
    env_vars: Vec<(String, String)>,
    cwd: String,
}

#[derive(Serialize)]
struct RunJobHttpRequest {
    command: CompileCommand,
    outputs: Vec<String>,
}

#[derive(Serialize)]
struct ProcessOutput {
    code: i32,
    stdout: Vec<u8>,
    stderr: Vec<u8>,
}

#[derive(Serialize)]
struct OutputData(Vec<u8>, u64);

#[derive(Serialize)]
struct JobComplete {
    output: ProcessOutput,
    outputs: Vec<(String, OutputData)>,
}

#[derive(Serialize)]
enum RunJobResult {
    JobNotFound,
    Complete(JobComplete),
}

#[derive(Serialize)]
enum SubmitToolchainResult {
    Success,
    JobNotFound,
    CannotCache,
}

#[derive(Serialize)]
struct SchedulerStatusResult {
    num_servers: usize,
    num_cpus: usize,
    in_progress: usize,
}

/// Marsaglia's xorshift64, from a fixed seed.
struct Random(u64);

impl Random {
    fn word(&mut self) -> u64 {
        self.0 ^= self.0 << 13;
        self.0 ^= self.0 >> 7;
        self.0 ^= self.0 << 17;
        self.0
    }

    fn below(&mut self, n: u64) -> u64 {
        (self.word() >> 16) % n
    }

    fn flag(&mut self) -> bool {
        self.below(2) == 1
    }

    /// A number, small or large, or an end of its type.
    fn number(&mut self) -> u64 {
        match self.below(5) {
            0 => self.below(300),
            1 => u64::MAX,
            2 => 1 << self.below(64),
            _ => self.word(),
        }
    }

    fn bytes(&mut self, most: u64) -> Vec<u8> {
        (0..self.below(most + 1)).map(|_| self.word() as u8).collect()
    }

    /// A text: letters, quotes, backslashes, control bytes and characters of two to four bytes.
    fn text(&mut self, most: u64) -> String {
        const ODD: &[char] = &[
            '"', '\\', '/', '\n', '\r', '\t', '\u{8}', '\u{c}', '\0', '\u{1f}', '~', 'é', '漢', 'ÿ', '😀',
        ];
        (0..self.below(most + 1))
            .map(|_| match self.below(4) {
                0 => ODD[self.below(ODD.len() as u64) as usize],
                _ => char::from(b'a' + self.below(26) as u8),
            })
            .collect()
    }

    fn texts(&mut self, most: u64) -> Vec<String> {
        (0..self.below(most + 1)).map(|_| self.text(6)).collect()
    }

    fn addr(&mut self) -> SocketAddr {
        let port = self.word() as u16;
        let ip = if self.flag() {
            IpAddr::V4(Ipv4Addr::from(self.word() as u32))
        } else {
            let mut groups = [0u16; 8];
            match self.below(3) {
                0 => {
                    groups[5] = 0xffff;
                    groups[6] = self.word() as u16;
                    groups[7] = self.word() as u16;
                }
                _ => {
                    for group in &mut groups {
                        *group = if self.flag() { 0 } else { self.word() as u16 };
                    }
                }
            }
            IpAddr::V6(Ipv6Addr::from(groups))
        };
        SocketAddr::new(ip, port)
    }

    fn state(&mut self) -> JobState {
        match self.below(4) {
            0 => JobState::Pending,
            1 => JobState::Ready,
            2 => JobState::Started,
            _ => JobState::Complete,
        }
    }

    fn job_alloc(&mut self) -> JobAlloc {
        JobAlloc {
            auth: self.text(12),
            job_id: JobId(self.number()),
            server_id: ServerId(self.addr()),
        }
    }

    fn alloc(&mut self) -> AllocJobResult {
        if self.below(3) == 0 {
            AllocJobResult::Fail { msg: self.text(12) }
        } else {
            AllocJobResult::Success {
                job_alloc: self.job_alloc(),
                need_toolchain: self.flag(),
            }
        }
    }

    fn complete(&mut self) -> JobComplete {
        let output = ProcessOutput {
            code: self.word() as i32,
            stdout: self.bytes(6),
            stderr: self.bytes(6),
        };
        let outputs = (0..self.below(3))
            .map(|_| (self.text(6), OutputData(self.bytes(6), self.number())))
            .collect();
        JobComplete { output, outputs }
    }
}

fn line<T: Serialize>(name: &str, message: &T) {
    let bytes = bincode::serialize(message).unwrap();
    // A value keeps the members of an object in byte order.
    let json = serde_json::to_value(message).unwrap().to_string();
    let hex: String = bytes.iter().map(|b| format!("{b:02x}")).collect();
    println!("{name} {hex} {json}");
}

fn main() {
    let mut r = Random(0x9e37_79b9_7f4a_7c15);
    for i in 0..200 {
        match i % 13 {
            0 => {
                let archive_id = (0..64).map(|_| char::from(b"0123456789abcdef"[r.below(16) as usize])).collect();
                line("Toolchain", &Toolchain { archive_id });
            }
            1 => line("JobState", &r.state()),
            2 => line(
                "AssignJobResult",
                &AssignJobResult {
                    state: r.state(),
                    need_toolchain: r.flag(),
                },
            ),
            3 => {
                let result = if r.below(4) == 0 {
                    UpdateJobStateResult::Success
                } else {
                    UpdateJobStateResult::Fail { msg: r.text(16) }
                };
                line("UpdateJobStateResult", &result);
            }
            4 => line(
                "HeartbeatServerHttpRequest",
                &HeartbeatServerHttpRequest {
                    jwt_key: r.bytes(16),
                    num_cpus: r.number() as usize,
                    server_nonce: ServerNonce(r.number()),
                },
            ),
            5 => line("HeartbeatServerResult", &HeartbeatServerResult { is_new: r.flag() }),
            6 => line("AllocJobHttpResponse", &r.alloc()),
            7 => line("AllocJobResult", &r.alloc()),
            8 => {
                let command = CompileCommand {
                    executable: r.text(8),
                    arguments: r.texts(3),
                    env_vars: (0..r.below(3)).map(|_| (r.text(5), r.text(5))).collect(),
                    cwd: r.text(8),
                };
                let outputs = r.texts(3);
                line("RunJobHttpRequest", &RunJobHttpRequest { command, outputs });
            }
            9 => {
                let result = if r.below(5) == 0 {
                    RunJobResult::JobNotFound
                } else {
                    RunJobResult::Complete(r.complete())
                };
                line("RunJobResult", &result);
            }
            10 => {
                let result = match r.below(3) {
                    0 => SubmitToolchainResult::Success,
                    1 => SubmitToolchainResult::JobNotFound,
                    _ => SubmitToolchainResult::CannotCache,
                };
                line("SubmitToolchainResult", &result);
            }
            11 => line(
                "SchedulerStatusResult",
                &SchedulerStatusResult {
                    num_servers: r.number() as usize,
                    num_cpus: r.number() as usize,
                    in_progress: r.number() as usize,
                },
            ),
            _ => line("JobAlloc", &r.job_alloc()),
        }
    }
}
