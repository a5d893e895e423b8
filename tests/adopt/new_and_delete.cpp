// Takes and gives back by new and delete, which have a heap of their own, and reads a word behind its array.
namespace std { using size_t = decltype(sizeof 0); struct nothrow_t {}; enum class align_val_t : size_t {}; }
static char room[256]; static std::size_t used;
__attribute__((noipa)) void *operator new(std::size_t size) { used += 16; return room + used + size * 0; }
__attribute__((noipa)) void *operator new[](std::size_t size) { used += 16; return room + used + size * 0; }
__attribute__((noipa)) void operator delete(void *block) noexcept { used -= block ? 16 : 0; }
__attribute__((noipa)) void operator delete[](void *block) noexcept { used -= block ? 16 : 0; }
__attribute__((noipa)) void operator delete(void *block, std::size_t) noexcept { used -= block ? 16 : 0; }
__attribute__((noipa)) void operator delete[](void *block, std::size_t) noexcept { used -= block ? 16 : 0; }
struct Level { int value; int more; };
__attribute__((noipa)) int first(int *levels, int count) { return levels[count]; }
int main()
{
    Level *level = new Level{1, 2};
    int *levels = new int[4]{};
    int sum = level->value + first(levels, 4);
    delete level;
    delete[] levels;
    return sum - 1;
}
