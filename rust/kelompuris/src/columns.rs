//! Tables and their columns: the ten of a scene, as paper 01 names them, and
//! those of cal3d's files. Sizes of rows and names of columns follow from these
//! lists.

pub mod cal3d;

/// How a column is held.
#[derive(Clone, Copy, Debug, PartialEq, Eq)]
pub enum Kind {
    /// Name place and name length.
    Name,
    /// A signed number.
    Whole,
    /// A float, held by its 32 bits.
    Float,
}

impl Kind {
    /// Words of a row that such a column takes.
    pub fn words(self) -> usize {
        match self {
            Kind::Name => 2,
            Kind::Whole | Kind::Float => 1,
        }
    }
}

/// Columns of one kind, one for each part of what the name means.
#[derive(Debug)]
struct Group {
    kind: Kind,
    name: &'static str,
    parts: &'static [&'static str],
}

/// A table: what one row is called, what several are, and the columns.
#[derive(Debug)]
pub struct Table {
    pub one: &'static str,
    pub many: &'static str,
    groups: &'static [Group],
}

impl Table {
    /// The kinds of the columns, in order.
    pub fn kinds(&self) -> impl Iterator<Item = Kind> + '_ {
        let kinds = |group: &Group| std::iter::repeat_n(group.kind, group.parts.len());
        self.groups.iter().flat_map(kinds)
    }

    /// Words of a row.
    pub fn words(&self) -> usize {
        self.kinds().map(Kind::words).sum()
    }

    /// The names of the columns with a tab between them.
    pub fn header(&self) -> String {
        let names = self.groups.iter().flat_map(|group| {
            let named = |part: &&str| match *part {
                "" => group.name.to_string(),
                part => format!("{}_{part}", group.name),
            };
            group.parts.iter().map(named)
        });
        names.collect::<Vec<_>>().join("\t")
    }

    /// The kind and the name of the column that begins at a word, with spaces in the
    /// name.
    pub fn column(&self, word: usize) -> Option<(Kind, String)> {
        let mut start = 0;
        for group in self.groups {
            for part in group.parts {
                if start == word {
                    let name = format!("{} {part}", group.name).replace('_', " ");
                    return Some((group.kind, name.trim_end().to_string()));
                }
                start += group.kind.words();
            }
        }
        None
    }

    /// The file that holds the table as text.
    pub fn file_name(&self) -> String {
        format!("{}.tsv", self.many.replace(' ', "_"))
    }
}

const ALONE: &[&str] = &[""];
const UV: &[&str] = &["u", "v"];
const XY: &[&str] = &["x", "y"];
const XYZ: &[&str] = &["x", "y", "z"];
const XYZW: &[&str] = &["x", "y", "z", "w"];
const RGB: &[&str] = &["red", "green", "blue"];
const RGBA: &[&str] = &["red", "green", "blue", "alpha"];
const FOUR: &[&str] = &["0", "1", "2", "3"];
const EIGHT: &[&str] = &["0", "1", "2", "3", "4", "5", "6", "7"];

const NAME: Group = group(Kind::Name, "name", ALONE);

const fn group(kind: Kind, name: &'static str, parts: &'static [&'static str]) -> Group {
    Group { kind, name, parts }
}

const fn whole(name: &'static str) -> Group {
    group(Kind::Whole, name, ALONE)
}

const fn wholes(name: &'static str, parts: &'static [&'static str]) -> Group {
    group(Kind::Whole, name, parts)
}

const fn float(name: &'static str) -> Group {
    group(Kind::Float, name, ALONE)
}

const fn floats(name: &'static str, parts: &'static [&'static str]) -> Group {
    group(Kind::Float, name, parts)
}

const fn table(one: &'static str, many: &'static str, groups: &'static [Group]) -> Table {
    Table { one, many, groups }
}

/// Version and n_texs, as a table of one row.
pub static HEAD: Table = table("scene", "scene", &[whole("version"), whole("n_texs")]);

const TEXTURE: &[Group] = &[
    NAME,
    whole("flags"),
    whole("blend"),
    floats("position", XY),
    floats("scale", XY),
    float("rotation"),
];
const BRUSH: &[Group] = &[
    NAME,
    float("red"),
    float("green"),
    float("blue"),
    float("alpha"),
    float("shininess"),
    whole("blend"),
    whole("fx"),
    wholes("texture", EIGHT),
];
const NODE: &[Group] = &[
    NAME,
    whole("parent"),
    floats("position", XYZ),
    floats("scale", XYZ),
    floats("rotation", FOUR),
    whole("kind"),
    whole("first"),
    whole("count"),
    whole("anim"),
    wholes("anim", &["flags", "frames"]),
    float("anim_fps"),
    whole("below"),
];
const MESH: &[Group] = &[
    whole("node"),
    whole("brush"),
    whole("flags"),
    whole("sets"),
    whole("set_size"),
    whole("first_vertex"),
    whole("vertices"),
    whole("first_triangle_set"),
    whole("triangle_sets"),
];
const VERTEX: &[Group] = &[
    floats("position", XYZ),
    floats("normal", XYZ),
    floats("colour", RGBA),
    floats("set_0", FOUR),
    floats("set_1", FOUR),
    floats("set_2", FOUR),
    floats("set_3", FOUR),
    floats("set_4", FOUR),
    floats("set_5", FOUR),
    floats("set_6", FOUR),
    floats("set_7", FOUR),
];
const TRIANGLE_SET: &[Group] = &[
    whole("mesh"),
    whole("brush"),
    whole("first_triangle"),
    whole("triangles"),
];
const KEY_LIST: &[Group] = &[
    whole("node"),
    whole("flags"),
    whole("first_key"),
    whole("keys"),
];
const KEY: &[Group] = &[
    whole("frame"),
    floats("position", XYZ),
    floats("scale", XYZ),
    floats("rotation", FOUR),
];

/// The ten tables of a scene.
pub static TABLES: [Table; 10] = [
    table("texture", "textures", TEXTURE),
    table("brush", "brushes", BRUSH),
    table("node", "nodes", NODE),
    table("mesh", "meshes", MESH),
    table("vertex", "vertices", VERTEX),
    table("triangle set", "triangle sets", TRIANGLE_SET),
    table(
        "triangle",
        "triangles",
        &[wholes("vertex", &["0", "1", "2"])],
    ),
    table("weight", "weights", &[whole("vertex"), float("weight")]),
    table("key list", "key lists", KEY_LIST),
    table("key", "keys", KEY),
];
