//! A strict reading of XML, as far as a picture needs it: one root, tags that balance,
//! attributes in quotes and none twice, and text in which `<` and `&` are escaped.

use std::collections::BTreeMap;

#[derive(Debug)]
pub struct Element {
    pub name: String,
    pub attributes: BTreeMap<String, String>,
    pub children: Vec<Node>,
}

#[derive(Debug)]
pub enum Node {
    Element(Element),
    Text(String),
}

type Read<T> = Result<T, String>;

/// What is not yet read.
struct Rest<'a>(&'a str);

/// The root of a text.
pub fn parse(text: &str) -> Read<Element> {
    let mut rest = Rest(text);
    if rest.takes("<?xml ") {
        rest.until("?>")?;
    }
    rest.skip_comments()?;
    let root = rest.element()?;
    rest.skip_comments()?;
    match rest.0 {
        "" => Ok(root),
        garbage => Err(format!("behind the root: {garbage:.40}")),
    }
}

impl Rest<'_> {
    fn takes(&mut self, start: &str) -> bool {
        let rest = self.0.strip_prefix(start);
        self.0 = rest.unwrap_or(self.0);
        rest.is_some()
    }

    fn take(&mut self, start: &str) -> Read<()> {
        match self.takes(start) {
            true => Ok(()),
            false => Err(format!("{start} is missing before {:.40}", self.0)),
        }
    }

    /// Takes all before a sign, and the sign.
    fn until(&mut self, end: &str) -> Read<String> {
        let split = self.0.split_once(end);
        let (before, rest) = split.ok_or_else(|| format!("{end} is missing"))?;
        self.0 = rest;
        Ok(String::from(before))
    }

    fn skip_space(&mut self) {
        self.0 = self.0.trim_start_matches([' ', '\t', '\n', '\r']);
    }

    fn skip_comments(&mut self) -> Read<()> {
        self.skip_space();
        while self.takes("<!--") {
            self.comment()?;
            self.skip_space();
        }
        Ok(())
    }

    /// The rest of a comment, in which two dashes stand at its end only.
    fn comment(&mut self) -> Read<()> {
        let comment = self.until("--")?;
        match self.takes(">") {
            true => Ok(()),
            false => Err(format!("two dashes in a comment: {comment:.40}")),
        }
    }

    fn name(&mut self) -> Read<String> {
        let is_in_name = |sign: char| sign.is_ascii_alphanumeric() || "_:-.".contains(sign);
        let rest = self.0.trim_start_matches(is_in_name);
        let name = &self.0[..self.0.len() - rest.len()];
        let is_name = name.starts_with(|sign: char| sign.is_ascii_alphabetic() || sign == '_');
        if !is_name {
            return Err(format!("no name: {:.40}", self.0));
        }
        self.0 = rest;
        Ok(String::from(name))
    }

    fn element(&mut self) -> Read<Element> {
        self.take("<")?;
        let name = self.name()?;
        let (attributes, is_empty) = self.attributes()?;
        let children = if is_empty {
            Vec::new()
        } else {
            self.children(&name)?
        };
        Ok(Element {
            name,
            attributes,
            children,
        })
    }

    /// The attributes, and whether the element ends with them.
    fn attributes(&mut self) -> Read<(BTreeMap<String, String>, bool)> {
        let mut attributes = BTreeMap::new();
        loop {
            let before = self.0.len();
            self.skip_space();
            if self.takes("/>") {
                return Ok((attributes, true));
            }
            if self.takes(">") {
                return Ok((attributes, false));
            }
            if self.0.len() == before {
                return Err(format!("no space before an attribute: {:.40}", self.0));
            }
            let name = self.name()?;
            let value = self.value()?;
            if attributes.insert(name.clone(), value).is_some() {
                return Err(format!("an attribute twice: {name}"));
            }
        }
    }

    fn value(&mut self) -> Read<String> {
        self.skip_space();
        self.take("=")?;
        self.skip_space();
        let quote = match self.takes("\"") {
            true => "\"",
            false => {
                self.take("'")?;
                "'"
            }
        };
        unescaped(&self.until(quote)?)
    }

    /// All up to the end tag of this name.
    fn children(&mut self, name: &str) -> Read<Vec<Node>> {
        let mut children = Vec::new();
        loop {
            let at = self.0.find('<');
            let at = at.ok_or_else(|| format!("{name} does not end"))?;
            let (text, rest) = self.0.split_at(at);
            if !text.is_empty() {
                children.push(Node::Text(unescaped(text)?));
            }
            self.0 = rest;
            if self.takes("</") {
                self.take(name)?;
                self.skip_space();
                self.take(">")?;
                return Ok(children);
            }
            if self.takes("<!--") {
                self.comment()?;
            } else if self.takes("<![CDATA[") {
                children.push(Node::Text(self.until("]]>")?));
            } else {
                children.push(Node::Element(self.element()?));
            }
        }
    }
}

/// A text with what its escapes stand for.
fn unescaped(text: &str) -> Read<String> {
    if text.contains('<') || text.contains("]]>") || text.contains(is_no_sign) {
        return Err(format!("a sign that has to be escaped: {text:.40}"));
    }
    let mut parts = text.split('&');
    let mut whole = String::from(parts.next().unwrap_or_default());
    for part in parts {
        let escape = part.split_once(';');
        let (name, rest) = escape.ok_or_else(|| format!("no escape: &{part:.40}"))?;
        whole.push(sign_of(name)?);
        whole += rest;
    }
    Ok(whole)
}

/// Signs that no text of XML has.
fn is_no_sign(sign: char) -> bool {
    sign < ' ' && !"\t\n\r".contains(sign)
}

fn sign_of(name: &str) -> Read<char> {
    let code = match name {
        "lt" => return Ok('<'),
        "gt" => return Ok('>'),
        "amp" => return Ok('&'),
        "quot" => return Ok('"'),
        "apos" => return Ok('\''),
        _ => match name.strip_prefix("#x") {
            Some(digits) => u32::from_str_radix(digits, 16).ok(),
            None => name
                .strip_prefix('#')
                .and_then(|digits| digits.parse().ok()),
        },
    };
    let sign = code.and_then(char::from_u32);
    sign.ok_or_else(|| format!("no escape: &{name};"))
}

impl Element {
    pub fn elements(&self) -> impl Iterator<Item = &Element> {
        self.children.iter().filter_map(|child| match child {
            Node::Element(element) => Some(element),
            Node::Text(_) => None,
        })
    }

    /// All text in it, that of elements inside too, one behind the other.
    pub fn text(&self) -> String {
        let texts = self.children.iter().map(|child| match child {
            Node::Element(element) => element.text(),
            Node::Text(text) => text.clone(),
        });
        texts.collect()
    }

    /// It and all elements inside it, in the order of their starts.
    pub fn all(&self) -> Vec<&Element> {
        let mut all = vec![self];
        for element in self.elements() {
            all.extend(element.all());
        }
        all
    }
}

#[test]
fn well_formed() {
    let text = "<?xml version=\"1.0\"?>\n<!-- a -->\n<a b='1' c=\"&lt;\"><d/>&amp;x<e>y</e></a>\n";
    let root = parse(text).expect("it is well-formed");
    assert_eq!(root.name, "a");
    assert_eq!(root.attributes["c"], "<");
    assert_eq!(root.text(), "&xy");
    assert_eq!(root.all().len(), 3);
}

#[test]
fn not_well_formed() {
    let texts = [
        "",
        "x",
        "<a>",
        "<a></b>",
        "<a><b></a></b>",
        "<a/><b/>",
        "<a/>x",
        "<a b=1/>",
        "<a b='1' b='2'/>",
        "<a b='1'c='2'/>",
        "<a b='<'/>",
        "<a>&</a>",
        "<a>&x;</a>",
        "<a>& </a>",
        "<a b='&'/>",
        "<1/>",
        "<a b/>",
        "<a><!-- -- --></a>",
        "<a>\u{1b}</a>",
        "<a>]]></a>",
    ];
    for text in texts {
        assert!(parse(text).is_err(), "{text}");
    }
}
