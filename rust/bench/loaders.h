// What target/peers and target/world share: ours by the C functions, Assimp's and Irrlicht's loaders of B3D files, and skeletons and meshes that libcal3d's own saver
// writes and its loader reads. Debian: libassimp-dev, libirrlicht-dev, libcal3d12-dev.
#pragma once
#include <assimp/Importer.hpp>
#include <assimp/scene.h>
#include <cal3d/cal3d.h>
#include <cal3d/saver.h>
#include <irrlicht/irrlicht.h>

#include <cstdint>
#include <cstring>
#include <fstream>
#include <iterator>
#include <memory>
#include <string>
#include <vector>

#include "kelompuris.h"

using Bytes = std::vector<uint8_t>;

inline Bytes bytes_of(const std::string &name) {
    std::ifstream in(name, std::ios::binary);
    return Bytes(std::istreambuf_iterator<char>(in), {});
}

inline void save(const std::string &name, const Bytes &bytes) {
    std::ofstream out(name, std::ios::binary);
    out.write(reinterpret_cast<const char *>(bytes.data()), std::streamsize(bytes.size()));
}

inline uint32_t word_at(const Bytes &b, size_t at) {
    uint32_t n;
    memcpy(&n, &b.at(at), 4);
    return n;
}

inline void put_word(Bytes &b, size_t at, uint32_t n) { memcpy(&b.at(at), &n, 4); }

// ---- B3D

const size_t WIDTHS[10] = {
    KELOMPURIS_TEXTURE_WORDS,      KELOMPURIS_BRUSH_WORDS,    KELOMPURIS_NODE_WORDS,   KELOMPURIS_MESH_WORDS,     KELOMPURIS_VERTEX_WORDS,
    KELOMPURIS_TRIANGLE_SET_WORDS, KELOMPURIS_TRIANGLE_WORDS, KELOMPURIS_WEIGHT_WORDS, KELOMPURIS_KEY_LIST_WORDS, KELOMPURIS_KEY_WORDS,
};

// Tables of the words that rows need.
template <size_t N> struct Tables {
    std::unique_ptr<uint32_t[]> words[N];
    size_t sizes[N];

    Tables(const size_t *widths, const uint32_t *counts) {
        for (size_t k = 0; k < N; k++) {
            sizes[k] = widths[k] * counts[k];
            words[k].reset(new uint32_t[sizes[k]]);
        }
    }
};

inline kelompuris_answer read_b3d(const Bytes &f, Tables<10> &t) {
    uint32_t *p[10];
    for (int k = 0; k < 10; k++) p[k] = t.words[k].get();
    const size_t *n = t.sizes;
    return kelompuris_b3d_read(KELOMPURIS_STRICT, f.data(), f.size(), p[0], n[0], p[1], n[1], p[2], n[2], p[3], n[3], p[4], n[4], p[5], n[5], p[6], n[6], p[7], n[7], p[8],
                               n[8], p[9], n[9]);
}

inline irr::IrrlichtDevice *irrlicht_device() {
    irr::SIrrlichtCreationParameters how;
    how.DriverType = irr::video::EDT_NULL;
    how.LoggingLevel = irr::ELL_NONE;
    return irr::createDeviceEx(how);
}

// The mesh that Irrlicht makes of a file, null where it refuses; its cache holds it.
inline irr::scene::IAnimatedMesh *irrlicht_mesh(irr::IrrlichtDevice *device, const Bytes &f) {
    auto *scene = device->getSceneManager();
    auto *in = device->getFileSystem()->createMemoryReadFile(const_cast<uint8_t *>(f.data()), irr::s32(f.size()), "scene.b3d", false);
    auto *mesh = scene->getMesh(in);
    in->drop();
    return mesh;
}

inline void drop(irr::IrrlichtDevice *device, irr::scene::IAnimatedMesh *mesh) { device->getSceneManager()->getMeshCache()->removeMesh(mesh); }

// ---- cal3d

const size_t CSF_WIDTHS[2] = {KELOMPURIS_CSF_BONE_WORDS, KELOMPURIS_CSF_CHILD_WORDS};
const size_t CMF_WIDTHS[6] = {KELOMPURIS_CMF_SUBMESH_WORDS, KELOMPURIS_CMF_VERTEX_WORDS, KELOMPURIS_CMF_MAP_WORDS,
                              KELOMPURIS_CMF_INFLUENCE_WORDS, KELOMPURIS_CMF_SPRING_WORDS, KELOMPURIS_CMF_FACE_WORDS};

inline kelompuris_csf_answer read_csf(const Bytes &f, Tables<2> &t) {
    return kelompuris_csf_read(f.data(), f.size(), t.words[0].get(), t.sizes[0], t.words[1].get(), t.sizes[1]);
}

inline kelompuris_cmf_answer read_cmf(const Bytes &f, uint32_t bones, Tables<6> &t) {
    uint32_t *p[6];
    for (int k = 0; k < 6; k++) p[k] = t.words[k].get();
    const size_t *n = t.sizes;
    return kelompuris_cmf_read(f.data(), f.size(), bones, p[0], n[0], p[1], n[1], p[2], n[2], p[3], n[3], p[4], n[4], p[5], n[5]);
}

// A tree of bones in which each has up to `children`, the root first, saved by libcal3d.
inline Bytes saved_skeleton(int bones, int children, const std::string &scratch) {
    CalCoreSkeletonPtr skeleton(new CalCoreSkeleton);
    for (int i = 0; i < bones; i++) {
        auto *bone = new CalCoreBone("bone" + std::to_string(i));
        bone->setParentId(i ? (i - 1) / children : -1);
        bone->setTranslation(CalVector(float(i), 0.5f, -1.f));
        bone->setRotation(CalQuaternion(0.f, 0.f, 0.f, 1.f));
        bone->setTranslationBoneSpace(CalVector(0.f, float(i), 2.f));
        for (int k = children * i + 1; k <= children * i + children && k < bones; k++) bone->addChildId(k);
        skeleton->addCoreBone(bone);
    }
    CalSaver::saveCoreSkeleton(scratch, skeleton.get());
    return bytes_of(scratch);
}

// A mesh of submeshes that each have so many vertices, with two influences, and faces, and springs if asked for, saved by libcal3d.
inline Bytes saved_mesh(int submeshes, int vertices, int bones, int maps, bool springs, const std::string &scratch) {
    CalCoreMeshPtr mesh(new CalCoreMesh);
    for (int s = 0; s < submeshes; s++) {
        auto *sub = new CalCoreSubmesh;
        sub->setCoreMaterialThreadId(s);
        sub->reserve(vertices, maps, vertices, springs ? vertices : 0);
        sub->setLodCount(0);
        for (int i = 0; i < vertices; i++) {
            CalCoreSubmesh::Vertex v;
            v.position = CalVector(float(i), 1.f, 2.f);
            v.normal = CalVector(0.f, 0.f, 1.f);
            v.collapseId = i ? i - 1 : -1;
            v.faceCollapseCount = 1;
            for (int k = 0; k < 2; k++) v.vectorInfluence.push_back({(i + k) % bones, 0.5f});
            sub->setVertex(i, v);
            for (int k = 0; k < maps; k++) sub->setTextureCoordinate(i, k, {0.25f, float(k)});
            int next = (i + 1) % vertices;
            CalCoreSubmesh::Face face = {{CalIndex(i), CalIndex(next), CalIndex((i + 2) % vertices)}};
            sub->setFace(i, face);
            if (springs) {
                sub->setSpring(i, {{i, next}, 1000.f, 1.f});
                sub->setPhysicalProperty(i, {float(i % 2)});
            }
        }
        mesh->addCoreSubmesh(sub);
    }
    CalSaver::saveCoreMesh(scratch, mesh.get());
    return bytes_of(scratch);
}

// Bytes of a bone in a skeleton file: from behind its name to its parent, and those of light and colour that version 1300 has behind that; those of the header's
// light.
const size_t CAL3D_BONE = 14 * 4 + 4, CAL3D_LIGHT = 16, CAL3D_AMBIENT = 12;

// A skeleton file of libcal3d's version as one of version 1300, without light; `from` is such a file.
inline Bytes csf_1300(const Bytes &from) {
    Bytes to(from.begin(), from.begin() + 12);
    put_word(to, 4, 1300);
    to.insert(to.end(), CAL3D_AMBIENT, 0);
    for (size_t at = 12; at < from.size();) {
        size_t start = at;
        at += 4 + word_at(from, at) + CAL3D_BONE;
        to.insert(to.end(), from.begin() + long(start), from.begin() + long(at));
        to.insert(to.end(), CAL3D_LIGHT, 0);
        start = at;
        at += 4 + 4 * word_at(from, at);
        to.insert(to.end(), from.begin() + long(start), from.begin() + long(at));
    }
    return to;
}

// A skeleton file of version 1300 as one of libcal3d's version, which wants a zero byte at the end of each name.
inline Bytes csf_own(const Bytes &from) {
    Bytes to(from.begin(), from.begin() + 12);
    put_word(to, 4, Cal::CURRENT_FILE_VERSION);
    for (size_t at = 12 + CAL3D_AMBIENT; at < from.size();) {
        uint32_t length = word_at(from, at);
        auto name = from.begin() + long(at) + 4;
        bool ended = length && name[length - 1] == 0;
        to.resize(to.size() + 4);
        put_word(to, to.size() - 4, length + !ended);
        to.insert(to.end(), name, name + length);
        if (!ended) to.push_back(0);
        to.insert(to.end(), name + length, name + length + long(CAL3D_BONE));
        size_t start = at += 4 + length + CAL3D_BONE + CAL3D_LIGHT;
        at += 4 + 4 * word_at(from, at);
        to.insert(to.end(), from.begin() + long(start), from.begin() + long(at));
    }
    return to;
}

// A mesh file of libcal3d's version as one of version 700, which has the same numbers.
inline Bytes cmf_700(Bytes file) {
    put_word(file, 4, 700);
    return file;
}

// Whether libcal3d reads such a file, which then has these rows.
inline bool cal3d_skeleton(const Bytes &own, uint32_t counts[2]) {
    CalCoreSkeletonPtr skeleton = CalLoader::loadCoreSkeleton(const_cast<void *>(static_cast<const void *>(own.data())));
    if (!skeleton) return false;
    counts[0] = counts[1] = 0;
    for (auto *bone : skeleton->getVectorCoreBone()) {
        counts[0]++;
        counts[1] += uint32_t(bone->getListChildId().size());
    }
    return true;
}

inline bool cal3d_mesh(const Bytes &file, uint32_t counts[6]) {
    CalCoreMeshPtr mesh = CalLoader::loadCoreMesh(const_cast<void *>(static_cast<const void *>(file.data())));
    if (!mesh) return false;
    for (int k = 0; k < 6; k++) counts[k] = 0;
    for (auto *sub : mesh->getVectorCoreSubmesh()) {
        counts[0]++;
        counts[1] += uint32_t(sub->getVertexCount());
        for (auto &map : sub->getVectorVectorTextureCoordinate()) counts[2] += uint32_t(map.size());
        for (auto &vertex : sub->getVectorVertex()) counts[3] += uint32_t(vertex.vectorInfluence.size());
        counts[4] += uint32_t(sub->getSpringCount());
        counts[5] += uint32_t(sub->getFaceCount());
    }
    return true;
}
