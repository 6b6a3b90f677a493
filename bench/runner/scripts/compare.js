function $merge($a, $from, $middle, $to, $into){
  var $i = $from;
  var $j = $middle;
  var $k = $from;
  while($k < $to){
    if($j === $to || $i < $middle && $a[$i] <= $a[$j]){
      $into[$k] = $a[$i];
      $i = $i + 1;
    }else{
      $into[$k] = $a[$j];
      $j = $j + 1;
    }
    $k = $k + 1;
  }
}
function $sorted($a, $b){
  var $n = $a.length;
  var $width = 1;
  while($width < $n){
    var $from = 0;
    while($from < $n){
      var $middle = $from + $width < $n ? $from + $width : $n;
      var $to = $middle + $width < $n ? $middle + $width : $n;
      $merge($a, $from, $middle, $to, $b);
      $from = $to;
    }
    var $swapped = $a;
    $a = $b;
    $b = $swapped;
    $width = $width * 2;
  }
  return $a;
}
function $start(){
  var $a = [];
  var $b = [];
  var $x = 1;
  var $i = 0;
  while($i < 200000){
    $x = $x * 69069 + 1 >>> 0;
    $a.push("name " + String($x >>> 12));
    $b.push("");
    $i = $i + 1;
  }
  $a = $sorted($a, $b);
  var $same = 0;
  $i = 1;
  while($i < $a.length){
    if($a[$i] === $a[$i - 1]){
      $same = $same + 1;
    }
    $i = $i + 1;
  }
  $write($a[0] + " " + $a[$a.length - 1] + " " + String($same));
}
$start();
