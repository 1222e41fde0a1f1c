// Times the proved readers beside Assimp's and Irrlicht's loaders of B3D files, libcal3d's of skeletons and meshes, a plain fill of the tables' words and a plain copy
// of the file: one run, the same file in memory, the shortest of many calls; where that is long, by processor time. Where Debian's libassimp-dev, libirrlicht-dev and libcal3d12-dev are installed,
// `make peers` builds and runs it, with the files that `make world` fetched.
//
//   peers [FILE..]
//
// A line is a file: its bytes, then microseconds for each. `judge` and the reading of `ours` are in strict mode. `ours` judges the file for its counts (B3D in lenient mode),
// allocates the tables, reads into them and frees them; a loader is given the bytes and what it makes is freed again; `fill` allocates the tables, stores one value into each word and frees them; `copy` copies the bytes into a buffer
// that is there. The ratios are of these times. A loader that refuses the file has no time.
#include <algorithm>
#include <chrono>
#include <cstdio>
#include <ctime>
#include <functional>

#include "loaders.h"

namespace {

// ---- files

void word(Bytes &out, uint32_t n) {
    for (int i = 0; i < 4; i++) out.push_back(uint8_t(n >> (8 * i)));
}

void real(Bytes &out, float x) {
    uint32_t n;
    memcpy(&n, &x, 4);
    word(out, n);
}

// A chunk: its tag, the length of its body, its body.
void chunk(Bytes &out, const char *tag, const Bytes &body) {
    out.insert(out.end(), tag, tag + 4);
    word(out, uint32_t(body.size()));
    out.insert(out.end(), body.begin(), body.end());
}

// What a NODE begins with: a name, position, scale, rotation.
Bytes node(const std::string &name) {
    Bytes b(name.begin(), name.end());
    b.push_back(0);
    for (float x : {0.f, 0.f, 0.f, 1.f, 1.f, 1.f, 1.f, 0.f, 0.f, 0.f}) real(b, x);
    return b;
}

// So many keys with position, scale and rotation.
Bytes keys(uint32_t count) {
    Bytes b;
    word(b, 7);
    for (uint32_t i = 0; i < count; i++) {
        word(b, i + 1);
        for (int k = 0; k < 10; k++) real(b, k == 6 ? 1.f : 0.5f);
    }
    return b;
}

Bytes file(const Bytes &root) {
    Bytes b, out;
    word(b, 1);
    chunk(b, "NODE", root);
    chunk(out, "BB3D", b);
    return out;
}

// A mesh of n vertices with normals and one set of two coordinates, n triangles, and bones below it with n weights and n keys in all.
Bytes mesh_scene(uint32_t n) {
    const uint32_t bones = std::min(n, 64u);
    Bytes vrts, tris, mesh, anim, root = node("mesh");
    for (uint32_t x : {1u, 1u, 2u}) word(vrts, x);
    for (uint32_t i = 0; i < n; i++)
        for (int k = 0; k < 8; k++) real(vrts, float(i % 97) * 0.25f + float(k));
    word(tris, 0xFFFFFFFF);
    for (uint32_t i = 0; i < n; i++)
        for (uint32_t k = 0; k < 3; k++) word(tris, (i + k) % n);
    word(mesh, 0xFFFFFFFF);
    chunk(mesh, "VRTS", vrts);
    chunk(mesh, "TRIS", tris);
    chunk(root, "MESH", mesh);
    word(anim, 0);
    word(anim, n);
    real(anim, 60.f);
    chunk(root, "ANIM", anim);
    for (uint32_t i = 0; i < bones; i++) {
        uint32_t from = n * i / bones, to = n * (i + 1) / bones;
        Bytes bone, below = node("bone" + std::to_string(i));
        for (uint32_t k = from; k < to; k++) {
            word(bone, k);
            real(bone, 1.f);
        }
        chunk(below, "BONE", bone);
        chunk(below, "KEYS", keys(to - from));
        chunk(root, "NODE", below);
    }
    return file(root);
}

// So many nodes below a root, each with so many keys.
Bytes node_scene(uint32_t nodes, uint32_t each) {
    Bytes root = node("root");
    for (uint32_t i = 0; i < nodes; i++) {
        Bytes b = node("node" + std::to_string(i));
        if (each) chunk(b, "KEYS", keys(each));
        chunk(root, "NODE", b);
    }
    return file(root);
}

// ---- times

double processor_time() {
    timespec now;
    clock_gettime(CLOCK_THREAD_CPUTIME_ID, &now);
    return double(now.tv_sec) * 1e6 + double(now.tv_nsec) * 1e-3;
}

// Calls that take longer, in microseconds, are timed by the processor time of this thread, since other processes may come between; to ask for that takes some tenths.
const double LONG = 100;

// The shortest time of each call in microseconds, below 0 where a call says that it failed. All are called in turns, each for a while, so that what else the machine
// does meets all of them.
template <size_t N, class F> void shortest(double (&times)[N], const F (&calls)[N]) {
    using clock = std::chrono::steady_clock;
    std::fill_n(times, N, 1e18);
    for (int turn = 0; turn < 8; turn++)
        for (size_t k = 0; k < N; k++) {
            auto begun = clock::now();
            for (int n = 0; times[k] >= 0 && (n < 3 || clock::now() - begun < std::chrono::milliseconds(25)); n++) {
                double before = processor_time();
                auto start = clock::now();
                bool ok = calls[k]();
                double time = std::chrono::duration<double, std::micro>(clock::now() - start).count();
                if (time > LONG) time = std::max(LONG, processor_time() - before);
                times[k] = ok ? std::min(times[k], time) : -1;
            }
        }
}

template <size_t N> bool filled(const size_t *widths, const uint32_t *counts) {
    Tables<N> t(widths, counts);
    for (size_t k = 0; k < N; k++) {
        std::fill_n(t.words[k].get(), t.sizes[k], 1u);
        asm volatile("" : : "r"(t.words[k].get()) : "memory");
    }
    return true;
}

bool copied(const Bytes &f, Bytes &to) {
    memcpy(to.data(), f.data(), f.size());
    asm volatile("" : : "r"(to.data()) : "memory");
    return true;
}

bool ours(const Bytes &f) {
    kelompuris_answer a = kelompuris_b3d_judge(KELOMPURIS_LENIENT, f.data(), f.size());
    if (a.number) return false;
    Tables<10> t(WIDTHS, a.counts);
    return read_b3d(f, t).number == 0;
}

bool assimp(const Bytes &f) {
    Assimp::Importer importer;
    return importer.ReadFileFromMemory(f.data(), f.size(), 0, "b3d") != nullptr;
}

bool irrlicht(irr::IrrlichtDevice *device, const Bytes &f) {
    auto *mesh = irrlicht_mesh(device, f);
    if (!mesh) return false;
    drop(device, mesh);
    return true;
}

// A number, or a dash where a loader refused.
std::string shown(double x, int digits, bool there) {
    char text[32];
    snprintf(text, sizeof text, "%.*f", digits, x);
    return there ? text : "-";
}

// The least of the ratios to loaders and the highest of those to a fill, of the lines so far of one kind.
struct Kind {
    double least = 1e18, most = 0;
    std::string least_of, most_of;

    void met(const std::string &name, double ratio) {
        if (ratio < least) least = ratio, least_of = name;
    }
    void met_fill(const std::string &name, double ratio) {
        if (ratio > most) most = ratio, most_of = name;
    }
};

using Call = std::function<bool()>;

void line(irr::IrrlichtDevice *device, const std::string &name, const Bytes &f, Kind &kind) {
    kelompuris_answer a = kelompuris_b3d_judge(KELOMPURIS_STRICT, f.data(), f.size());
    if (a.number) {
        printf("%-30s %9zu | refused: %u %u\n", name.c_str(), f.size(), a.number, a.place);
        return;
    }
    Bytes to(f.size());
    const Call calls[] = {
        [&] { return kelompuris_b3d_judge(KELOMPURIS_STRICT, f.data(), f.size()).number == 0; },
        [&] { return ours(f); },
        [&] { return assimp(f); },
        [&] { return irrlicht(device, f); },
        [&] { return filled<10>(WIDTHS, a.counts); },
        [&] { return copied(f, to); },
    };
    double t[6];
    shortest(t, calls);
    double we = t[1], as = t[2], ir = t[3];
    printf("%-30s %9zu | %9.1f %9.1f %10s %10s %9.1f %8.1f | %8s %9s %9.2f\n", name.c_str(), f.size(), t[0], we, shown(as, 1, as >= 0).c_str(), shown(ir, 1, ir >= 0).c_str(), t[4], t[5],
           shown(as / we, 1, as >= 0).c_str(), shown(ir / we, 1, ir >= 0).c_str(), we / t[4]);
    if (as >= 0) kind.met(name, as / we);
    if (ir >= 0) kind.met(name, ir / we);
    kind.met_fill(name, we / t[4]);
}

void cal3d_line(const std::string &name, const Bytes &f, const Call (&calls)[5]) {
    double t[5];
    shortest(t, calls);
    printf("%-30s %9zu | %9.1f %9.1f %10s %9.1f %8.1f | %9s %9.2f\n", name.c_str(), f.size(), t[0], t[1], shown(t[2], 1, t[2] >= 0).c_str(), t[3], t[4],
           shown(t[2] / t[1], 1, t[2] >= 0).c_str(), t[1] / t[3]);
}

void skeleton_line(int bones, const std::string &scratch) {
    Bytes own = saved_skeleton(bones, 3, scratch), f = csf_1300(own), to(f.size());
    kelompuris_csf_answer a = kelompuris_csf_judge(f.data(), f.size());
    const Call calls[] = {
        [&] { return kelompuris_csf_judge(f.data(), f.size()).number == 0; },
        [&] {
            Tables<2> t(CSF_WIDTHS, kelompuris_csf_judge(f.data(), f.size()).counts);
            return read_csf(f, t).number == 0;
        },
        [&] {
            uint32_t counts[2];
            return cal3d_skeleton(own, counts);
        },
        [&] { return filled<2>(CSF_WIDTHS, a.counts); },
        [&] { return copied(f, to); },
    };
    cal3d_line("skeleton, " + std::to_string(bones) + " bones", f, calls);
}

void mesh_line(int vertices, bool springs, const std::string &scratch) {
    const uint32_t bones = 40;
    Bytes f = cmf_700(saved_mesh(1, vertices, int(bones), 1, springs, scratch)), to(f.size());
    kelompuris_cmf_answer a = kelompuris_cmf_judge(f.data(), f.size(), bones);
    const Call calls[] = {
        [&] { return kelompuris_cmf_judge(f.data(), f.size(), bones).number == 0; },
        [&] {
            Tables<6> t(CMF_WIDTHS, kelompuris_cmf_judge(f.data(), f.size(), bones).counts);
            return read_cmf(f, bones, t).number == 0;
        },
        [&] {
            uint32_t counts[6];
            return cal3d_mesh(f, counts);
        },
        [&] { return filled<6>(CMF_WIDTHS, a.counts); },
        [&] { return copied(f, to); },
    };
    cal3d_line("mesh, " + std::to_string(vertices) + " vertices" + (springs ? ", springs" : ""), f, calls);
}

void print_processor() {
    std::ifstream in("/proc/cpuinfo");
    for (std::string text; std::getline(in, text);)
        if (text.rfind("model name", 0) == 0) {
            printf("%s\n\n", text.substr(text.find(':') + 2).c_str());
            return;
        }
}

// Whether an aim is met.
const char *met(bool is) { return is ? "met" : "MISSED"; }

}  // namespace

int main(int count, char **names) {
    irr::IrrlichtDevice *device = irrlicht_device();
    if (!device) return 1;
    setvbuf(stdout, nullptr, _IOLBF, 0);
    print_processor();
    printf("%-30s %9s | %9s %9s %10s %10s %9s %8s | %8s %9s %9s\n", "file", "bytes", "judge", "ours", "Assimp", "Irrlicht", "fill", "copy", "Assimp/", "Irrlicht/", "ours/fill");
    Kind made, scene, real_files;
    for (uint32_t n : {16u, 64u, 256u, 1024u, 4096u, 16384u, 163840u}) line(device, "mesh " + std::to_string(n), mesh_scene(n), n == 16384u ? scene : made);
    for (uint32_t n : {16u, 128u, 1000u}) line(device, "nodes " + std::to_string(n) + ", 16 keys", node_scene(n, 16), made);
    line(device, "nodes 5000", node_scene(5000, 0), made);
    for (int i = 1; i < count; i++) {
        std::string name = names[i];
        line(device, name.substr(name.rfind('/') + 1), bytes_of(name), real_files);
    }
    device->drop();
    const char *scratch = "target/peers.cal3d";
    printf("\n%-30s %9s | %9s %9s %10s %9s %8s | %9s %9s\n", "cal3d", "bytes", "judge", "ours", "libcal3d", "fill", "copy", "libcal3d/", "ours/fill");
    for (int bones : {40, 1000, 16000}) skeleton_line(bones, std::string(scratch) + ".csf");
    for (int vertices : {100, 1000, 8000})
        for (bool springs : {false, true}) mesh_line(vertices, springs, std::string(scratch) + ".cmf");
    printf("\nmesh 16384: %.1f times as fast as the nearer loader (aim 12: %s), %.2f times a fill (aim 3: %s)\n", scene.least, met(scene.least >= 12), scene.most, met(scene.most <= 3));
    if (count > 1) printf("real files: at least %.1f times (aim 6: %s), the least %s\n", real_files.least, met(real_files.least >= 6), real_files.least_of.c_str());
    printf("other made files: at least %.1f times, the least %s\n", made.least, made.least_of.c_str());
}
