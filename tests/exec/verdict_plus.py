"""The small tests of `test-verdicts` in C++, without its library, which Debian's gcc for RISC-V doesn't have."""
from verdict_tests import BRANCH, FREE, LOST, READ, WRITE, right, wrong

# What a list of blocks is in these tests.
LIST = r"""
template <class Item> class List {
    struct Node { Item item; Node *next; };
    Node *first = nullptr;
public:
    List() = default;
    List(const List &) = delete;
    ~List() { while (first) { Node *next = first->next; delete first; first = next; } }
    void add(const Item &item) { first = new Node{item, first}; }
    template <class Visitor> void visit(Visitor visitor) const { for (Node *at = first; at; at = at->next) visitor(at->item); }
};"""
SHAPES = r"""
struct Shape { virtual int area() const { return 0; } virtual ~Shape() {} };
struct Square : Shape { int side; Square(int side) : side(side) {} int area() const override { return side * side; } };
struct Box : Shape { int width, height; Box(int width, int height) : width(width), height(height) {}
                     int area() const override { return width * height; } };
APART Shape *made(int kind) { if (kind) return new Square(kind); return new Box(3, 4); }"""
LEVELS = r"""
struct Levels {
    int count, *levels;
    explicit Levels(int count) : count(count), levels(new int[count]()) {}
    ~Levels() { delete[] levels; }
    APART void fill(int most) { for (int at = 0; at <= most; at++) levels[at] = at; }
    APART int sum() const { int sum = 0; for (int at = 0; at < count; at++) sum += levels[at]; return sum; }
};"""
TESTS_PLUS = [
    right("C++: virtual functions", SHAPES + r"""
int main()
{
    for (int kind = 0; kind < 3; kind++) { Shape *shape = made(kind); printf("%d\n", shape->area()); delete shape; }
    return 0;
}"""),
    right("C++: a template, a lambda and references", LIST + r"""
int main()
{
    List<long long> list;
    long long sum = 0;
    static const int levels[] = { 3, 1, 4, 1, 5, 9 };
    for (int level : levels)
        list.add(level);
    list.visit([&sum](const long long &level) { sum = sum * 10 + level; });
    printf("%lld\n", sum);
    return 0;
}"""),
    right("C++: objects that are constructed before main", LEVELS + r"""
static Levels *whole = new Levels(5);
struct Logged { const char *name; Logged(const char *name) : name(name) { puts(name); } };
static Logged first("first"), second("second");
int main() { whole->fill(4); static Logged third("third"); printf("%d\n", whole->sum()); return 0; }"""),
    right("C++: an array of objects", LEVELS + r"""
struct Three : Levels { Three() : Levels(3) {} };
int main() { Three *all = new Three[4]; all[3].fill(2); printf("%d\n", all[3].sum()); delete[] all; return 0; }"""),
    wrong("C++: an element after an array of new", WRITE + "4", LEVELS + """
int main() { Levels levels(6); levels.fill(6); return levels.sum() != 15; }"""),
    wrong("C++: an object is used after delete", READ + "4", LEVELS + """
int main() { Levels *levels = new Levels(2); delete levels; return levels->sum(); }"""),
    wrong("C++: a virtual function of a deleted object", READ + "4", SHAPES + """
APART int area(const Shape *shape) { return shape->area(); }
int main() { Shape *shape = made(2); delete shape; return area(shape) != 4; }"""),
    wrong("C++: delete twice", FREE, LEVELS + """
APART void drop(Levels levels) { levels.fill(1); }
int main() { Levels levels(3); drop(levels); return 0; }"""),
    wrong("C++: an array of objects is deleted as one", FREE, LEVELS + """
struct Three : Levels { Three() : Levels(3) {} };
APART void drop(Three *all) { delete all; }
int main() { drop(new Three[2]); return 0; }"""),
    wrong("C++: a leak by a base without a virtual destructor", LOST, LEVELS + """
struct Named { const char *name = "tide"; };
struct Gauge : Named { Levels levels{4}; };
APART void drop(Named *named) { delete named; }
int main() { drop(new Gauge); return 0; }"""),
    wrong("C++: a member that the constructor forgets", BRANCH, r"""
class Gauge { int level = 0, most; public: Gauge() {} APART bool is_high() const { return level > most; } };
int main() { Gauge *gauge = new Gauge; if (gauge->is_high()) puts("high"); delete gauge; return 0; }"""),
    wrong("C++: a failed assert in a method", 134, LEVELS + """
int main() { Levels levels(3); levels.fill(2); assert(levels.sum() == 4); return 0; }"""),
]
for test in TESTS_PLUS:
    test.is_plus = True
