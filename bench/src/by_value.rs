//! The plain runner, taken and handed back by value at each call.
use crate::plain;
use crate::plain::Told;

pub struct Runner(plain::Runner);

pub struct Turn {
    pub runner: Runner,
    pub told: Told,
}

impl Runner {
    pub fn new() -> Runner {
        Runner(plain::Runner::new())
    }

    pub fn load(mut self, file: &[u8]) -> Turn {
        let told = self.0.load(file);
        Turn { runner: self, told }
    }

    pub fn begin(mut self, mode: u32, inputs: &[u32], allowed: u32, limit: u32) -> Turn {
        let told = self.0.begin(mode, inputs, allowed, limit);
        Turn { runner: self, told }
    }

    pub fn advance(mut self, m: u32) -> Turn {
        let told = self.0.advance(m);
        Turn { runner: self, told }
    }

    pub fn answer(self) -> Turn {
        let told = self.0.answer();
        Turn { runner: self, told }
    }

    pub fn write_back(self, buf: &mut [u8]) -> Turn {
        let told = self.0.write_back(buf);
        Turn { runner: self, told }
    }
}

impl Default for Runner {
    fn default() -> Runner {
        Runner::new()
    }
}
