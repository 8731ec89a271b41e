//! How the command is used.

pub const VERSION: &str = concat!("combgallop ", env!("CARGO_PKG_VERSION"), "\n");

pub const TEXT: &str = "\
combgallop: which buffer of a heap image was hurt, and who touched it last

usage: combgallop report FILE    the report, and what is known of each hurt buffer
       combgallop map FILE       one cell for each buffer, in the order of the addresses
       combgallop json FILE      everything that is found, as one JSON object
       combgallop explain NUMBER a verdict or a refusal in words

FILE is one byte, the sheet's length, and then sheet, heap, records and log; - is standard input.

  --userland          the image is of libumem's profile; without it, the kernel's
  --magazines FILE    the addresses of the buffers in magazines, as text (- is standard input)
  --now MS            the uptime at the reset in milliseconds: latest transactions go by it
  --svg OUT           of map: write a picture to OUT instead (- is standard output)
  -h, --help          this text
  -V, --version       the version

exit status: 0 sound, 1 a fault or a chain that does not end, 2 the image is refused,
             3 a wrong command line, or a file that cannot be read or written
";
