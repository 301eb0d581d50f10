// A case: a chunk, its limits, and the number from which all else that is asked of it is drawn.
use luad_core::limits::ResourceLimits;
use std::fmt::Write;

pub type Limits = [u64; 9];

#[derive(Clone)]
pub struct Case {
    pub chunk: Vec<u8>,
    pub limits: Limits,
    pub ask: u64,
}

impl Case {
    pub fn resource_limits(&self) -> ResourceLimits {
        let limit = self.limits.map(|limit| limit as usize);
        ResourceLimits {
            max_input_bytes: limit[0],
            max_nesting_depth: limit[1],
            max_total_prototypes: limit[2],
            max_instructions_per_proto: limit[3],
            max_total_instructions: limit[4],
            max_constants_per_proto: limit[5],
            max_upvalues_per_proto: limit[6],
            max_string_bytes: limit[7],
            max_diagnostics: limit[8],
        }
    }

    /// As a request of docs/PROTOCOL.md.
    pub fn request(&self) -> String {
        let mut text = String::new();
        for limit in self.limits {
            write!(text, "{limit} ").expect("a String takes every text");
        }
        text + &if self.chunk.is_empty() { "-".to_string() } else { hex::encode(&self.chunk) }
    }
}
