; Plain code for two vector instructions that WebAssembly does not have. The proved code reads the digits of a line by them.

; Multiplies unsigned bytes by signed bytes, and adds each two neighbours as words that stop at their bounds.
define internal <8 x i16> @dot_bytes(<16 x i8> %a, <16 x i8> %b) {
  %x = zext <16 x i8> %a to <16 x i16>
  %y = sext <16 x i8> %b to <16 x i16>
  %products = mul <16 x i16> %x, %y
  %even = shufflevector <16 x i16> %products, <16 x i16> poison, <8 x i32> <i32 0, i32 2, i32 4, i32 6, i32 8, i32 10, i32 12, i32 14>
  %odd = shufflevector <16 x i16> %products, <16 x i16> poison, <8 x i32> <i32 1, i32 3, i32 5, i32 7, i32 9, i32 11, i32 13, i32 15>
  %sums = call <8 x i16> @llvm.sadd.sat.v8i16(<8 x i16> %even, <8 x i16> %odd)
  ret <8 x i16> %sums
}

; Multiplies signed words, and adds each two neighbours as double words.
define internal <4 x i32> @dot_words(<8 x i16> %a, <8 x i16> %b) {
  %x = sext <8 x i16> %a to <8 x i32>
  %y = sext <8 x i16> %b to <8 x i32>
  %products = mul <8 x i32> %x, %y
  %even = shufflevector <8 x i32> %products, <8 x i32> poison, <4 x i32> <i32 0, i32 2, i32 4, i32 6>
  %odd = shufflevector <8 x i32> %products, <8 x i32> poison, <4 x i32> <i32 1, i32 3, i32 5, i32 7>
  %sums = add <4 x i32> %even, %odd
  ret <4 x i32> %sums
}

declare <8 x i16> @llvm.sadd.sat.v8i16(<8 x i16>, <8 x i16>)
