//! A purely combinational image made from any image: register targets and read
//! data become inputs, what registers and memories take becomes outputs. Equal
//! modules of this kind are equal for all settings and all contents.

use image::{ABSENT, Image, kind};

use crate::needed::ports;

/// The opened image. It may pass the format's limits; nothing is judged here.
pub fn opened(image: &Image) -> Image {
    let mut opener = Opener {
        image: image.clone(),
    };
    for register in &image.registers {
        opener.become_input(register[2]);
        opener.show(register[3]);
        opener.show_signals(&[register[4], register[6], register[8]]);
        if register[8] != ABSENT {
            opener.show(register[11]);
        }
    }
    for port in image.memories.iter().flat_map(ports) {
        opener.become_input(port[1]);
        for place in [0, 4, 5] {
            opener.show(port[place]);
        }
        opener.show_signals(&[port[2], port[6], port[8]]);
    }
    opener.image.registers.clear();
    opener.image.memories.clear();
    opener.image
}

struct Opener {
    image: Image,
}

impl Opener {
    fn become_input(&mut self, signal: u32) {
        self.image.signals[signal as usize][3] = 1;
    }

    /// A new output with the value of an expression.
    fn show(&mut self, expression: u32) {
        let width = self.image.expressions[expression as usize][1];
        let name = format!("\x7e{}", self.image.signals.len());
        let signal = self.image.add_signal(name, width, 2);
        self.image.assignments.push([signal, 0, width, expression]);
    }

    fn show_signals(&mut self, signals: &[u32]) {
        for &signal in signals.iter().filter(|signal| **signal != ABSENT) {
            self.image.expressions.push([kind::SIGNAL, 1, signal, 0, 0]);
            self.show(self.image.expressions.len() as u32 - 1);
        }
    }
}
