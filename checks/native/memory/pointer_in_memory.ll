; A pointer is stored, loaded, and gone through.
define i32 @f() {
  %value = alloca i32, align 4
  %slot = alloca ptr, align 8
  store i32 77, ptr %value, align 4
  store ptr %value, ptr %slot, align 8
  %back = load ptr, ptr %slot, align 8
  %same = icmp eq ptr %back, %value
  %read = load i32, ptr %back, align 4
  %answer = select i1 %same, i32 %read, i32 0
  ret i32 %answer
}
