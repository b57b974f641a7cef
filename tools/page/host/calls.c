// What the program reaches of the C library: calls that the page writes, and answers that it reads. Not proved.
//
// The program reads a call as a file, up to its end. The next read after the end waits for the next call: `wait` is the
// page's, and the program is suspended in it.
typedef unsigned long u64;
typedef long i64;
void *memcpy(void *, const void *, u64);
void *take(u64);
void give(void *);
extern int page_program(void);
__attribute__((import_module("page"), import_name("wait"))) void page_wait(void);

enum { SUSPENDED_ROOM = 65536, INPUT_FAILED = 5 };
static unsigned char *call, *answer;
static u64 call_size, call_at, answer_size, answer_room;
static int is_over;
static unsigned char suspended[SUSPENDED_ROOM];

#define EXPORTED(name) __attribute__((export_name(name)))

// Room for a call of so many bytes, which the page fills before it lets the program go on; 0 where there is none.
EXPORTED("call") unsigned char *new_call(u64 size) {
  give(call);
  call = take(size ? size : 1);
  call_size = call ? size : 0;
  call_at = answer_size = 0;
  is_over = 0;
  return call;
}
EXPORTED("answer") unsigned char *the_answer(void) { return answer; }
EXPORTED("answer_size") u64 size_of_answer(void) { return answer_size; }
EXPORTED("room") unsigned char *room_to_suspend(void) { return suspended; }
EXPORTED("room_size") u64 size_of_room(void) { return SUSPENDED_ROOM; }
EXPORTED("run") int run(void) { return page_program(); }

i64 read(int file, void *to, u64 count) {
  if (file) return -1;
  if (is_over) page_wait();
  u64 rest = call_size - call_at, size = rest < count ? rest : count;
  memcpy(to, call + call_at, size);
  call_at += size;
  is_over = count && !size;
  return (i64)size;
}
i64 write(int file, const void *from, u64 count) {
  if (file != 1) return (i64)count;
  if (answer_size + count > answer_room) {
    u64 room = (answer_size + count) * 2;
    unsigned char *wider = take(room);
    if (!wider) return -1;
    memcpy(wider, answer, answer_size);
    give(answer);
    answer = wider;
    answer_room = room;
  }
  memcpy(answer + answer_size, from, count);
  answer_size += count;
  return (i64)count;
}
i64 lseek(int file, i64 at, int from) { return -1; }
int rattle_errno(void) { return INPUT_FAILED; }
i64 __sysv_signal(int signal, i64 to) { return 0; }
int __xpg_strerror_r(int error, char *to, u64 count) {
  if (count) *to = 0;
  return 0;
}
