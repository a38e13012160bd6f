// version: prints the versions of header and library, 100 * major + minor each; status 1 where they differ. It shows that physica.h serves C++ too.
// Build, at the repository's root, after `sh tools/library.sh`: sh examples/build.sh
// Run: target/examples/version
#include <cstdio>

#include "physica.h"

int main() {
    unsigned library = physica_version();
    std::printf("header %d, library %u\n", PHYSICA_VERSION, library);
    return library == PHYSICA_VERSION ? 0 : 1;
}
