// Holds what ours counts in files to what other loaders count in them; tools/world runs it.
//
//   world b3d FILE..       a line for each B3D file, with Assimp's and Irrlicht's counts where they take the file
//   world cal3d FOLDER     files that libcal3d's saver writes, converted where its version differs from the one that ours reads, and put into the folder
//   world cal3d FOLDER SKELETON MESH   the same of these two, which are of the versions that ours reads
//
// Ends with 1 where a count differs, or a file is refused.
#include <algorithm>
#include <cstdio>
#include <map>
#include <set>

#include "loaders.h"

namespace {

int failed = 0;

void same(const char *what, uint64_t ours, uint64_t theirs) {
    printf(", %s %llu", what, (unsigned long long)theirs);
    if (ours != theirs) {
        printf(" (DIFFERS: ours %llu)", (unsigned long long)ours);
        failed = 1;
    }
}

// Irrlicht leaves keys out that say what those beside them say.
void no_more(const char *what, uint64_t ours, uint64_t theirs) { same(what, std::max(ours, theirs) == ours ? theirs : ours, theirs); }

uint32_t nodes_below(const aiNode *node) {
    uint32_t sum = 1;
    for (unsigned i = 0; i < node->mNumChildren; i++) sum += nodes_below(node->mChildren[i]);
    return sum;
}

// What ours reads of a file, as the two loaders count.
struct Counts {
    uint64_t nodes, triangles, sets, moving = 0, weights = 0;
    // Positions, scales and rotations in keys; where Assimp counts, a node with keys but none of a kind has one of it.
    uint64_t keys[3] = {}, padded[3] = {};

    Counts(const kelompuris_answer &a, const Tables<10> &t) : nodes(a.counts[2]), triangles(a.counts[6]), sets(a.counts[5]) {
        // Irrlicht takes no weight of 0 and none of a vertex that is in no triangle.
        std::set<uint32_t> used;
        for (size_t i = 0; i < t.sizes[6]; i++) used.insert(t.words[6][i]);
        for (size_t i = 0; i < a.counts[7]; i++) {
            float weight;
            memcpy(&weight, &t.words[7][2 * i + 1], 4);
            weights += weight > 0 && used.count(t.words[7][2 * i]);
        }
        for (int kind = 0; kind < 3; kind++) {
            std::map<uint32_t, uint64_t> of_node;
            for (size_t i = 0; i < a.counts[8]; i++) {
                const uint32_t *list = &t.words[8][4 * i];
                of_node[list[0]] += list[1] >> kind & 1 ? list[3] : 0;
            }
            for (auto &[node, count] : of_node) {
                keys[kind] += count;
                padded[kind] += std::max<uint64_t>(count, 1);
            }
            moving = of_node.size();
        }
    }
};

void b3d(irr::IrrlichtDevice *device, const std::string &name) {
    Bytes f = bytes_of(name);
    kelompuris_answer a = kelompuris_b3d_judge(KELOMPURIS_STRICT, f.data(), f.size());
    printf("%s:", name.substr(name.rfind('/') + 1).c_str());
    if (a.number) {
        printf(" refused: %u %u\n", a.number, a.place);
        failed = 1;
        return;
    }
    Tables<10> t(WIDTHS, a.counts);
    if (read_b3d(f, t).number) failed = 1;
    Counts ours(a, t);
    Assimp::Importer importer;
    const aiScene *scene = importer.ReadFileFromMemory(f.data(), f.size(), 0, "b3d");
    printf(" Assimp");
    if (scene) {
        uint64_t triangles = 0, moving = 0, positions = 0, scales = 0, rotations = 0;
        for (unsigned i = 0; i < scene->mNumMeshes; i++) triangles += scene->mMeshes[i]->mNumFaces;
        for (unsigned i = 0; i < scene->mNumAnimations; i++)
            for (unsigned k = 0; k < scene->mAnimations[i]->mNumChannels; k++) {
                const aiNodeAnim *channel = scene->mAnimations[i]->mChannels[k];
                moving++;
                positions += channel->mNumPositionKeys;
                scales += channel->mNumScalingKeys;
                rotations += channel->mNumRotationKeys;
            }
        same("nodes", ours.nodes, nodes_below(scene->mRootNode));
        same("triangle sets", ours.sets, scene->mNumMeshes);
        same("triangles", ours.triangles, triangles);
        same("nodes with keys", ours.moving, moving);
        same("positions", ours.padded[0], positions);
        same("scales", ours.padded[1], scales);
        same("rotations", ours.padded[2], rotations);
    } else {
        printf(" refuses it");
    }
    auto *mesh = irrlicht_mesh(device, f);
    printf("; Irrlicht");
    if (mesh) {
        auto *skinned = static_cast<irr::scene::ISkinnedMesh *>(mesh);
        uint64_t triangles = 0, weights = 0, positions = 0, scales = 0, rotations = 0;
        for (auto i = 0u; i < skinned->getMeshBuffers().size(); i++) triangles += skinned->getMeshBuffers()[i]->getIndexCount() / 3;
        for (auto i = 0u; i < skinned->getAllJoints().size(); i++) {
            auto *joint = skinned->getAllJoints()[i];
            weights += joint->Weights.size();
            positions += joint->PositionKeys.size();
            scales += joint->ScaleKeys.size();
            rotations += joint->RotationKeys.size();
        }
        same("nodes", ours.nodes, skinned->getAllJoints().size());
        same("triangles", ours.triangles, triangles);
        same("weights", ours.weights, weights);
        no_more("positions", ours.keys[0], positions);
        no_more("scales", ours.keys[1], scales);
        no_more("rotations", ours.keys[2], rotations);
        drop(device, mesh);
    } else {
        printf(" refuses it");
    }
    printf("\n");
}

template <size_t N> void line(const std::string &name, size_t bytes, uint32_t number, uint32_t place, const uint32_t *ours, bool loaded, const uint32_t *theirs) {
    printf("%s, %zu bytes: ours %u %u, libcal3d %s, rows", name.c_str(), bytes, number, place, loaded ? "loads it" : "REFUSES it");
    for (size_t k = 0; k < N; k++) {
        printf(" %u", theirs[k]);
        if (ours[k] != theirs[k]) {
            printf(" (DIFFERS: ours %u)", ours[k]);
            failed = 1;
        }
    }
    printf("\n");
    if (number || !loaded) failed = 1;
}

// A skeleton as ours reads it and as libcal3d does.
uint32_t skeleton(const std::string &name, const Bytes &file, const Bytes &own) {
    kelompuris_csf_answer a = kelompuris_csf_judge(file.data(), file.size());
    Tables<2> t(CSF_WIDTHS, a.counts);
    if (!a.number) a = read_csf(file, t);
    uint32_t theirs[2] = {};
    bool loaded = cal3d_skeleton(own, theirs);
    line<2>(name, file.size(), a.number, a.place, a.counts, loaded, theirs);
    return a.counts[0];
}

void mesh(const std::string &name, const Bytes &file, uint32_t bones, const Bytes &own) {
    kelompuris_cmf_answer a = kelompuris_cmf_judge(file.data(), file.size(), bones);
    Tables<6> t(CMF_WIDTHS, a.counts);
    if (!a.number) a = read_cmf(file, bones, t);
    uint32_t theirs[6] = {};
    bool loaded = cal3d_mesh(own, theirs);
    line<6>(name, file.size(), a.number, a.place, a.counts, loaded, theirs);
}

void saved(const std::string &folder) {
    for (int bones : {1, 2, 40, 4000}) {
        std::string name = folder + "/bones_" + std::to_string(bones) + ".csf";
        Bytes own = saved_skeleton(bones, 3, name), file = csf_1300(own);
        if (csf_own(file) != own) failed = 1;
        save(name, file);
        skeleton("skeleton of " + std::to_string(bones), file, own);
    }
    for (int vertices : {3, 100, 2000})
        for (int submeshes : {1, 3})
            for (bool springs : {false, true}) {
                std::string about = std::to_string(submeshes) + "_submeshes_" + std::to_string(vertices) + (springs ? "_springs" : "");
                std::string name = folder + "/" + about + ".cmf";
                Bytes own = saved_mesh(submeshes, vertices, 40, springs ? 2 : 1, springs, name), file = cmf_700(own);
                save(name, file);
                mesh("mesh " + about, file, 40, own);
                mesh("mesh " + about + ", version 700 for both", file, 40, file);
            }
}

}  // namespace

int main(int count, char **words) {
    std::string command = count > 1 ? words[1] : "";
    if (command == "b3d") {
        irr::IrrlichtDevice *device = irrlicht_device();
        if (!device) return 2;
        for (int i = 2; i < count; i++) b3d(device, words[i]);
        device->drop();
    } else if (command == "cal3d" && count == 3) {
        saved(words[2]);
    } else if (command == "cal3d" && count == 5) {
        Bytes file = bytes_of(words[3]), other = bytes_of(words[4]);
        uint32_t bones = skeleton(words[3], file, csf_own(file));
        mesh(words[4], other, bones, other);
    } else {
        return 2;
    }
    return failed;
}
