; Flags change nothing where no overflow comes.
define i32 @f() {
  %a = add nuw nsw i16 1000, 2000
  %b = sub nuw nsw i16 %a, 1
  %c = mul nuw nsw i16 %b, 3
  %d = shl nuw nsw i16 %c, 1
  %e = zext i16 %d to i32
  ret i32 %e
}
