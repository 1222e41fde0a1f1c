//! The tables of cal3d's files, as paper 02 names them.

use super::{float, floats, table, whole, wholes, Group, Table, NAME, RGB, UV, XYZ, XYZW};

/// The numbers of a skeleton's header, as a table of one row.
pub static SKELETON_HEAD: Table = table(
    "skeleton",
    "skeleton",
    &[whole("version"), whole("bones"), floats("ambient", RGB)],
);

/// The tables of a skeleton.
pub static SKELETON: [Table; 2] = [
    table("bone", "bones", BONE),
    table("child", "children", &[whole("bone")]),
];

const BONE: &[Group] = &[
    NAME,
    floats("translation", XYZ),
    floats("rotation", XYZW),
    floats("local_translation", XYZ),
    floats("local_rotation", XYZW),
    whole("parent"),
    whole("lighting"),
    floats("colour", RGB),
    whole("children"),
    whole("first_child"),
];

/// The numbers of a mesh's header, as a table of one row.
pub static MESH_HEAD: Table = table("mesh", "mesh", &[whole("version"), whole("submeshes")]);

/// The tables of a mesh.
pub static MESH: [Table; 6] = [
    table("submesh", "submeshes", SUBMESH),
    table("vertex", "vertices", VERTEX),
    table("map", "maps", &[floats("map", UV)]),
    table("influence", "influences", &[whole("bone"), float("weight")]),
    table("spring", "springs", SPRING),
    table("face", "faces", &[wholes("vertex", &["0", "1", "2"])]),
];

const SUBMESH: &[Group] = &[
    whole("material"),
    whole("vertices"),
    whole("faces"),
    whole("lod_steps"),
    whole("springs"),
    whole("maps"),
    whole("first_vertex"),
    whole("first_spring"),
    whole("first_face"),
];
const VERTEX: &[Group] = &[
    floats("position", XYZ),
    floats("normal", XYZ),
    whole("collapse"),
    whole("face_collapses"),
    whole("influences"),
    float("cloth_weight"),
    whole("first_map"),
    whole("first_influence"),
];
const SPRING: &[Group] = &[
    wholes("vertex", &["0", "1"]),
    float("coefficient"),
    float("idle_length"),
];
