; The lowest byte of a number comes first.
define i32 @f() {
  %slot = alloca i64, align 8
  store i64 72623859790382856, ptr %slot, align 8
  %third = getelementptr inbounds i8, ptr %slot, i64 2
  %two = load i16, ptr %third, align 2
  %wide = zext i16 %two to i32
  ret i32 %wide
}
