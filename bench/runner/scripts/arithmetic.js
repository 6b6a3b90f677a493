function $start(){
  var $x = 1;
  var $sum = 0;
  var $i = 0;
  while($i < 3000000){
    $x = $x * 69069 + 1 >>> 0;
    $sum = $sum + ($x >>> 9) % 1000 | 0;
    if(($x & 64) === 0){
      $sum = $sum ^ $i << 3;
    }else{
      $sum = $sum - ($i >> 2) | 0;
    }
    $i = $i + 1;
  }
  $write(String($sum));
}
$start();
