// host PLUGIN..: loads plug-ins that each have a copy of the library inside, as visibly as can be, and says of each
// whether it finds its own copy and nobody else can.

#include <dlfcn.h>

#include <cstdio>
#include <cstring>

namespace {

const char *const call_name = "tikomuci_constant";

bool stands_apart(const char *file) {
    void *plugin = dlopen(file, RTLD_NOW | RTLD_GLOBAL);
    if (!plugin) {
        std::printf("%s\n", dlerror());
        return false;
    }
    const auto call = reinterpret_cast<const void *(*)()>(dlsym(plugin, "plugin_call"));
    const auto refuses = reinterpret_cast<bool (*)()>(dlsym(plugin, "plugin_refuses"));
    Dl_info found{};
    if (!call || !refuses || !refuses() || !dladdr(call(), &found)) {
        std::printf("%s: no plug-in\n", file);
        return false;
    }
    if (std::strcmp(found.dli_fname, file) != 0) {
        std::printf("%s: calls the library inside %s\n", file, found.dli_fname);
        return false;
    }
    if (dlsym(plugin, call_name) || dlsym(RTLD_DEFAULT, call_name)) {
        std::printf("%s: others can call the library inside\n", file);
        return false;
    }
    std::printf("%s: apart\n", file);
    return true;
}

}  // namespace

int main(int count, char **arguments) {
    bool apart = count > 1;
    for (int i = 1; i < count; ++i) {
        apart = stands_apart(arguments[i]) && apart;
    }
    return apart ? 0 : 1;
}
