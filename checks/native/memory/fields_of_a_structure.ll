; Fields keep to their places, with padding between them.
define i32 @f() {
  %s = alloca { i8, i32, i16 }, align 4
  %a = getelementptr inbounds { i8, i32, i16 }, ptr %s, i64 0, i32 0
  %b = getelementptr inbounds { i8, i32, i16 }, ptr %s, i64 0, i32 1
  %c = getelementptr inbounds { i8, i32, i16 }, ptr %s, i64 0, i32 2
  store i8 -1, ptr %a, align 1
  store i32 70000, ptr %b, align 4
  store i16 -2, ptr %c, align 2
  %x = load i8, ptr %a, align 1
  %y = load i32, ptr %b, align 4
  %z = load i16, ptr %c, align 2
  %x1 = sext i8 %x to i32
  %z1 = zext i16 %z to i32
  %d = add i32 %x1, %y
  %e = add i32 %d, %z1
  ret i32 %e
}
