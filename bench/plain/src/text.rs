//! Reading OFF texts and files of lengths.

use crate::mesh::Mesh;

pub type Result<T> = std::result::Result<T, String>;

/// What an OFF text holds. Lines of vertices and colours of faces are kept where they are written
/// again.
pub struct Off<'a> {
    pub keyword: &'a [u8],
    pub vertex_lines: Vec<&'a [u8]>,
    pub colours: Vec<&'a [u8]>,
    pub mesh: Mesh,
}

/// A place in a text. Tokens stand between blanks and line ends; `#` begins a comment up to the end
/// of its line.
struct Scanner<'a> {
    text: &'a [u8],
    at: usize,
}

fn is_blank(byte: u8) -> bool {
    matches!(byte, b' ' | b'\t' | b'\r')
}

impl<'a> Scanner<'a> {
    /// The byte here. Behind the last byte are line ends.
    #[inline(always)]
    fn byte(&self) -> u8 {
        self.text.get(self.at).copied().unwrap_or(b'\n')
    }

    #[inline(always)]
    fn skip_blanks(&mut self) {
        while is_blank(self.byte()) {
            self.at += 1;
        }
    }

    fn skip_to_line_end(&mut self) {
        while self.byte() != b'\n' {
            self.at += 1;
        }
    }

    /// Goes to the next token, over line ends and comments; tells whether there is one.
    #[inline(always)]
    fn is_at_token(&mut self) -> bool {
        loop {
            self.skip_blanks();
            match self.byte() {
                b'\n' if self.at >= self.text.len() => return false,
                b'\n' => self.at += 1,
                b'#' => self.skip_to_line_end(),
                _ => return true,
            }
        }
    }

    /// The next number of this line.
    #[inline(always)]
    fn number(&mut self) -> Result<u32> {
        self.skip_blanks();
        let from = self.at;
        let mut number = 0u64;
        while self.byte().is_ascii_digit() {
            number = 10 * number + u64::from(self.byte() - b'0');
            self.at += 1;
        }
        let is_token = matches!(self.byte(), b' ' | b'\t' | b'\r' | b'\n' | b'#');
        if self.at == from || self.at > from + 10 || !is_token {
            return Err(format!("no number at byte {from}"));
        }
        u32::try_from(number).map_err(|_| format!("a number above 32 bits at byte {from}"))
    }

    /// What is left of this line, without blanks around it.
    #[inline(always)]
    fn rest_of_line(&mut self) -> &'a [u8] {
        self.skip_blanks();
        let from = self.at;
        while !matches!(self.byte(), b'\n' | b'#') {
            self.at += 1;
        }
        let mut end = self.at;
        while end > from && is_blank(self.text[end - 1]) {
            end -= 1;
        }
        self.skip_to_line_end();
        &self.text[from..end]
    }

    fn keyword(&mut self) -> &'a [u8] {
        let from = self.at;
        while !is_blank(self.byte()) && self.byte() != b'\n' {
            self.at += 1;
        }
        &self.text[from..self.at]
    }
}

/// Reads an OFF text; `keeps` says whether its lines are kept.
pub fn read_off(text: &[u8], keeps: bool) -> Result<Off<'_>> {
    let mut scanner = Scanner { text, at: 0 };
    scanner.is_at_token();
    let keyword = scanner.keyword();
    if !keyword.ends_with(b"OFF") {
        return Err("no OFF text".into());
    }
    scanner.is_at_token();
    let (vertices, faces) = (scanner.number()? as usize, scanner.number()? as usize);
    scanner.rest_of_line();
    let mut vertex_lines = vec![];
    for _ in 0..vertices {
        scanner.is_at_token();
        let line = scanner.rest_of_line();
        if keeps {
            vertex_lines.push(line);
        }
    }
    let (mut starts, mut corners, mut colours) = (vec![0], Vec::with_capacity(3 * faces), vec![]);
    for _ in 0..faces {
        read_face(&mut scanner, vertices, &mut corners)?;
        starts.push(corners.len() as u32);
        let colour = scanner.rest_of_line();
        if keeps {
            colours.push(colour);
        }
    }
    Ok(Off { keyword, vertex_lines, colours, mesh: Mesh::new(vertices, starts, corners)? })
}

#[inline(always)]
fn read_face(scanner: &mut Scanner, vertices: usize, corners: &mut Vec<u32>) -> Result<()> {
    scanner.is_at_token();
    for _ in 0..scanner.number()? {
        let vertex = scanner.number()?;
        if vertex as usize >= vertices {
            return Err(format!("no vertex {vertex}"));
        }
        corners.push(vertex);
    }
    Ok(())
}

/// The length of each edge by its number, from lines of two vertices and a length.
pub fn read_lengths(text: &[u8], mesh: &Mesh) -> Result<Vec<u32>> {
    let mut scanner = Scanner { text, at: 0 };
    let mut lengths = vec![0; mesh.edges()];
    while scanner.is_at_token() {
        let (u, v, length) = (scanner.number()?, scanner.number()?, scanner.number()?);
        let edge = mesh.edge(u, v).ok_or_else(|| format!("no edge {u} {v}"))?;
        lengths[edge as usize] = length;
    }
    if lengths.contains(&0) {
        return Err("an edge without a length, or of length 0".into());
    }
    Ok(lengths)
}
